.assembly extern mscorlib { }
.assembly A { }
.class public C<T> extends [mscorlib]System.Object {
  .method public instance void M<U>() cil managed { .param type [1] ret }
  .custom instance void [mscorlib]System.ObsoleteAttribute::.ctor() = (01 00 00 00)
}