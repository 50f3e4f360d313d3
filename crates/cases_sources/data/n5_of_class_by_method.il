.assembly extern mscorlib { }
.assembly A { }
.class C<T, U> { .field !!U F }