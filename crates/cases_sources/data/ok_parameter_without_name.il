.assembly extern mscorlib { }
.assembly A { }
.class C { .method void M(int32) { } }