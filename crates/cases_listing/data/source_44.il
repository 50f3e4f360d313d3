.assembly extern mscorlib { }
.assembly A { }
.class public C<X, U> extends [mscorlib]System.Object {
  .class nested public D extends [mscorlib]System.Object { .method public instance void M<U>() cil managed { .param type U ret } }
  .custom instance void [mscorlib]System.ObsoleteAttribute::.ctor() = (01 00 00 00)
}