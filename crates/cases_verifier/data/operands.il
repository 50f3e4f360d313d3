// Kinds of operands, and whether they go together.
.assembly extern mscorlib { }
.assembly Test { }

.class interface public abstract I { }
.class interface public abstract J { }
.class public A implements I {
  .method public specialname rtspecialname instance void .ctor() cil managed { ret }
  .method public static void Sm() cil managed { ret }
  .method public instance void Im() cil managed { ret }
}
.class public B extends A implements J { }
.class public sealed S extends [mscorlib]System.ValueType implements I {
  .field public int32 x
  .field public static int32 s
  .method public specialname rtspecialname instance void .ctor() cil managed { ret }
  .method public instance void V() cil managed { ret }
}
.class public U {
  .method public static void TakeR(int32&) cil managed { ret }
}
.class public T {
  .method public static void 'the length of a number'() cil managed { ldc.i4.1 ldlen pop ret }
  .method public static void 'the length of an array'(int32[]) cil managed { ldarg.0 ldlen pop ret }
  .method public static void 'the length of null'() cil managed { ldnull ldlen pop ret }
  .method public static void 'an array as long as an int64'() cil managed { ldc.i8 1 newarr int32 pop ret }
  .method public static void 'a sum of a value type'(valuetype S) cil managed { ldarg.0 ldc.i4.0 add pop ret }
  .method public static void 'a sum of int32 and int64'() cil managed { ldc.i4.1 ldc.i8 1 add pop ret }
  .method public static void 'a sum of references'() cil managed { ldnull ldnull add pop ret }
  .method public static void 'a sum of int32 and native int'() cil managed { ldc.i4.1 ldc.i4.1 conv.i add pop ret }
  .method public static void 'what follows a wrong sum'() cil managed { ldnull ldnull add dup pop pop ret }
  .method public static void 'a checked sum of floats'() cil managed { ldc.r4 float32(0) dup add.ovf pop ret }
  .method public static void 'bits of floats'() cil managed { ldc.r4 float32(0) dup and pop ret }
  .method public static void 'a shift by a native int'() cil managed { ldc.i4.1 ldc.i4.1 conv.i shl pop ret }
  .method public static void 'a shift by an int64 keeps its first operand'() cil managed {
    ldc.i4.1  ldc.i8 1  shl  pop  ret }
  .method public static void 'an unsigned number as a float'() cil managed { ldc.i4.0 conv.r.un pop ret }
  .method public static void 'a float with its sign changed'() cil managed { ldc.r4 float32(0) neg pop ret }
  .method public static void 'a number as a native one'() cil managed { ldc.i4.1 conv.u pop ret }
  .method public static void 'references that are equal or not'(class A, class I) cil managed {
    ldarg.0  ldarg.1  ceq  pop  ret }
  .method public static void 'references of which one is less'(class A, class I) cil managed {
    ldarg.0  ldarg.1  clt  pop  ret }
  .method public static void 'references of which one is greater as a number'(class A, class I) cil managed {
    ldarg.0  ldarg.1  cgt.un  pop  ret }
  .method public static void 'a branch on a float'() cil managed { ldc.r4 float32(0) brtrue.s L L: ret }
  .method public static void 'a switch'() cil managed { ldc.i4.0 switch (L) L: ret }
  .method public static void 'a switch with three targets'() cil managed {
    ldc.i4.0  switch (a, b, c)  a: nop  b: nop  c: ret }
  .method public static void 'a switch on a native int'() cil managed { ldc.i4.0 conv.i switch (L) L: ret }
  .method public static void 'a number thrown'() cil managed { ldc.i4.1 throw }
  .method public static void 'null thrown'() cil managed { ldnull throw }
  .method public static void 'an int64 through a pointer to an int32'(int32&) cil managed { ldarg.0 ldind.i8 pop ret }
  .method public static void 'a reference through a pointer to an int32'(int32&) cil managed {
    ldarg.0  ldind.ref  pop  ret }
  .method public static void 'a reference through a pointer to one'(class A&) cil managed {
    ldarg.0  ldind.ref  pop  ret }
  .method public static void 'a class through a pointer to one derived from it'(class B&, class A) cil managed {
    ldarg.0  ldarg.1  stind.ref  ret }
  .method public static void 'a number through a pointer to a class'(class A&, int32) cil managed {
    ldarg.0  ldarg.1  stind.ref  ret }
  .method public static void 'a pointer to another type'(int64&) cil managed {
    ldarg.0  call void U::TakeR(int32&)  ret }
  .method public static void 'a start value through a pointer to another type'(valuetype S&) cil managed {
    ldarg.0  initobj valuetype [mscorlib]System.Guid  ret }
}
