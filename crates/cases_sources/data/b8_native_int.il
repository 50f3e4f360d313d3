.assembly extern mscorlib { }
.assembly A { }
.field static native int F at Q .data Q = int8[9]