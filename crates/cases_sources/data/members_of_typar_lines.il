.assembly extern mscorlib { }
.assembly A { }
.class public C<T> extends [mscorlib]System.Object {
  .method public static void M<U>() cil managed { .param type U .custom instance void [mscorlib]A::.ctor() ret }
  .custom instance void [mscorlib]B::.ctor()
  .class nested public N { .method public static void O<V>() cil managed { .param type [1] ret } }
  .custom instance void [mscorlib]D::.ctor()
  .param type T
  .custom instance void [mscorlib]E::.ctor()
}
