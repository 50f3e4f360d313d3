.assembly extern mscorlib { }
.assembly A { }
.class C { .method void M(int32 ab) { .param [0] = int8(1) } }