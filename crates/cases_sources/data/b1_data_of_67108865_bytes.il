.assembly extern mscorlib { }
.assembly A { }
.data int8[67108865]