// The end of the code, what nobody reaches, prefixes, and what is never verified.
.assembly extern mscorlib { }
.assembly Test { }

.class interface public abstract I { }
.class public A implements I {
  .method public specialname rtspecialname instance void .ctor() cil managed { ret }
  .method public static void Sm() cil managed { ret }
  .method public instance void Im() cil managed { ret }
}
.class public sealed S extends [mscorlib]System.ValueType implements I {
  .field public int32 x
  .field public static int32 s
  .method public specialname rtspecialname instance void .ctor() cil managed { ret }
  .method public instance void V() cil managed { ret }
}
.class public T {
  .method public static void 'the last instruction falls on'() cil managed { nop }
  .method public static void 'and so it does as a target'() cil managed { br.s L L: nop }
  .method public static void 'the last instruction goes back'() cil managed { L: br.s L }
  .method public static void 'nobody comes past ret'() cil managed { ret pop add nop }
  .method public static void 'nor past a branch'() cil managed { br.s L pop L: ret }
  .method public static void 'nor past throw'() cil managed { ldnull throw add }
  .method public static void 'volatile. before an instruction without memory'() cil managed { volatile. nop ret }
  .method public static void 'tail. among prefixes of a load'(int32&) cil managed {
    ldarg.0  volatile.  tail.  ldind.i4  pop  ret }
  .method public static void 'volatile. before a load'(int32&) cil managed { ldarg.0 volatile. ldind.i4 pop ret }
  .method public static void 'two prefixes before a load'(int32&) cil managed {
    ldarg.0  volatile.  unaligned. 1  ldind.i4  pop  ret }
  .method public static void 'a load with a prefix as a target'(int32&, bool) cil managed {
    ldarg.0  volatile.  L: ldind.i4  pop  ldarg.0  ldarg.1  brtrue.s L  pop  ret }
  .method public static void 'a tail call'() cil managed { tail. call void A::Sm() ret }
  .method public static void 'a tail call that no ret follows'() cil managed { tail. call void A::Sm() nop ret }
  .method public static void 'readonly. before ldelema'(class A[]) cil managed {
    ldarg.0  ldc.i4.0  readonly.  ldelema A  pop  ret }
  .method public static void 'a constrained call on a pointer'(valuetype S) cil managed {
    ldarga.s 0  constrained. S  callvirt instance string [mscorlib]System.Object::ToString()  pop  ret }
  .method public static void 'a constrained call on the value itself'(valuetype S) cil managed {
    ldarg.0  constrained. S  callvirt instance string [mscorlib]System.Object::ToString()  pop  ret }
  .method public static void 'localloc'() cil managed { ldc.i4.1 conv.u localloc pop ret }
  .method public static void 'arglist'() cil managed { arglist }
  .method public static void 'sizeof'() cil managed { sizeof S pop ret }
  .method public instance explicit void 'a method that states its object'(class T) cil managed { ldnull ldnull pop }
  .method public static void 'a call of a method that states its object'() cil managed {
    ldnull  ldnull  call instance explicit void [mscorlib]Far.X::Explicit(class [mscorlib]Far.X)  ret }
  .method public instance explicit void 'locals without init come first'(class T) cil managed { .locals (int32) ret }
  .method public static void 'locals without init'() cil managed { .locals (int32) ret }
  .method public static void 'locals with init'() cil managed { .locals init (int32) ret }
}
