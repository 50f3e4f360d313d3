.assembly extern mscorlib { }
.assembly A { }
.field int32[-268435457...] F