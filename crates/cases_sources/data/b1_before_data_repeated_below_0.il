.assembly extern mscorlib { }
.assembly A { }
.field static int32 X at Q
.data Q = int8[-1]