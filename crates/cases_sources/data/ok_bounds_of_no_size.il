.assembly extern mscorlib { }
.assembly A { }
.field int32[2...1] F