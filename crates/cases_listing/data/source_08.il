.assembly extern mscorlib { }
.assembly A { }
.class C<+ T, - class .ctor U, valuetype (C, class C<!0, !1, !2>) V> { .param type [2] .custom instance void [mscorlib]X::.ctor() = (01 00) }