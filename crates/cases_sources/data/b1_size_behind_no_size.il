.assembly extern mscorlib { }
.assembly A { }
.field int32[,5] F