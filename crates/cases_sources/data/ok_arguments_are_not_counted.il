.assembly extern mscorlib { }
.assembly A { }
.class D<T> { .class E { } }
.field valuetype D<int32, class D>[] F