// an extern with the assembly's name goes before it
.assembly extern Test { } .assembly Test { .custom void [Test]X::.ctor() }
