.assembly extern mscorlib { }
.assembly A { }
.class C { .field class C F .field class [A]C F }