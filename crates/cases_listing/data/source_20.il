.assembly extern mscorlib { }
.assembly A { }
.data A = { int8(1)[16], bytearray (01 02) } .data float64 .data B = int32(-2) .field static int32 x at B .class C { .field static int64 y at A } 