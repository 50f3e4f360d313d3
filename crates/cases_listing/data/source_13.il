.assembly extern mscorlib { }
.assembly A { }
.field public static literal int8 a = int8(255) .field public static literal char b = char(65) .field public static literal float32 c = float32(1) .field public static literal float64 d = float64(-1) .field public static literal string e = "q\"\\\t\n" .field public static literal string f = "\001" .field public static literal bool g = bool(false)