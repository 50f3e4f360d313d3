.assembly extern mscorlib { .ver 1:2:3:65535 }
.assembly flags(1) my.asm { .custom void [mscorlib]X::.ctor() = (01) }
.class explicit ansi unicode  N.C0<- T> {
.data D0 = float64(1)
}
.custom instance uint64 modreq(!0) C0::.ctor()