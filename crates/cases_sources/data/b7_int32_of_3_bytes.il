.assembly extern mscorlib { }
.assembly A { }
.field static int32 F at Q .data Q = int8[3]