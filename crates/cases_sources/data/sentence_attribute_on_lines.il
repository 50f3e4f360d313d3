.custom
instance
void
[a.b]X/Y::.ctor()