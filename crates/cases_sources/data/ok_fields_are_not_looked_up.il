.assembly extern mscorlib { }
.assembly A { }
.class C { .method void M(int32) { .try { ldfld int32 C::x } catch C { ret } } }