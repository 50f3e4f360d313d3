// layouts: of repeats the last holds, and what isn't said is 0
.assembly extern mscorlib { } .assembly A { } .class sequential ansi sealed S extends [mscorlib]System.ValueType { .pack 8 .size 8 .pack 2 .custom void [mscorlib]X::.ctor() = (01) .class nested private N { .size 5 .custom void [mscorlib]X::.ctor() = (02) } .custom void [mscorlib]X::.ctor() = (03) } .class P { .pack 4 }
