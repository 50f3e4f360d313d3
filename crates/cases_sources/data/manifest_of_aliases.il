// aliases and the assembly's own name
.assembly extern Lib as A { .ver 1:0:0:0 } .assembly extern Lib as B { .ver 2:0:0:0 } .assembly C { .custom void [B]X::.ctor() .custom void [C]Y::.ctor() .custom void [A]Z::.ctor() } .class Y extends [A]Z { }
