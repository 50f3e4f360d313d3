.assembly extern mscorlib { }
.assembly A { }
.class D<T> { .class E { } }
.field class D/E F