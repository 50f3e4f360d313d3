.assembly extern mscorlib { }
.assembly A { }
.class C { .method void M() { } .method instance void M() { } .method void M<T>() { } .method vararg void M() { } .method instance explicit void M() { } }