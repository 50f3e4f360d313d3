.assembly extern mscorlib { }
.assembly A { }
.class D<T> { .class E { } }
.field int32 modreq(D) modopt(class D) pinned F