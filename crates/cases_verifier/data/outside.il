// A type of another assembly, without and with that assembly.
.assembly extern mscorlib { }
.assembly extern Lib { }
.assembly Outside { }

.class public T {
  .method public static int32 'an enum of another assembly as its number'(valuetype [Lib]E) cil managed { ldarg.0 ret }
  .method public static valuetype [Lib]E 'and as itself'(valuetype [Lib]E) cil managed { ldarg.0 ret }
}
