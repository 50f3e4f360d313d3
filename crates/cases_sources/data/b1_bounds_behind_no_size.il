.assembly extern mscorlib { }
.assembly A { }
.field int32[,1...5] F