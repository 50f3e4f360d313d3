.assembly extern mscorlib { }
.assembly A { }
.data int16[67108864]