.assembly extern mscorlib { } .assembly Test { }
.class A { .class nested public N extends A { } }