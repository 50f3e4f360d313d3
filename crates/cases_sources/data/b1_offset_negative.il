.assembly extern mscorlib { }
.assembly A { }
.field [-1] int32 F