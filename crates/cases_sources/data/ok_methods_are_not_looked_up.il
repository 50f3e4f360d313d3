.assembly extern mscorlib { }
.assembly A { }
.class C { .class D { } }
.method static void M() cil managed { call void C/D::.ctor() ret }