.assembly extern mscorlib { }
.assembly A { }
.class C { .class nested public D<T> { .class nested famandassem E { } } .class F { } }