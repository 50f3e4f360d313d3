.assembly extern mscorlib { }
.assembly A { }
.class C { .field int32[,1] F .field int32[,1] F }