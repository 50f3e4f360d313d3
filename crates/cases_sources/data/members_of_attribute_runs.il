// a run of attributes goes on through plain braces and ends at those of a `.try`
.assembly extern mscorlib { } .assembly A { } .method static void M(int32) cil managed { .param [1] { .custom void [mscorlib]X::.ctor() = (01) } { { .custom void [mscorlib]X::.ctor() = (02) } } .try { .custom void [mscorlib]X::.ctor() = (03) nop } finally { endfinally } }
