.assembly extern mscorlib { }
.assembly A { }
.class C { .method void M() { .override I::N } }