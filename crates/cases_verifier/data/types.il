// Types of operands: what is assignable to what is wanted, and what types are where they meet.
.assembly extern mscorlib { }
.assembly Test { }

.class interface public abstract I { }
.class interface public abstract J { }
.class public A implements I {
  .method public specialname rtspecialname instance void .ctor() cil managed { ret }
  .method public static void Sm() cil managed { ret }
  .method public instance void Im() cil managed { ret }
}
.class public B extends A implements J { }
.class public C implements I, J { }
.class public sealed S extends [mscorlib]System.ValueType implements I {
  .field public int32 x
  .field public static int32 s
  .method public specialname rtspecialname instance void .ctor() cil managed { ret }
  .method public instance void V() cil managed { ret }
}
.class public sealed E extends [mscorlib]System.Enum {
  .field public static valuetype E X
  .field public uint8 value__
}
.class public sealed EB extends [mscorlib]System.Enum { .field public bool value__ }
.class public U {
  .method public static void TakeI(class I) cil managed { ret }
  .method public static void TakeO(object) cil managed { ret }
  .method public static void TakeA(class A) cil managed { ret }
  .method public static void TakeN(native int) cil managed { ret }
  .method public static void Take4(int32) cil managed { ret }
}
.class public T {
  .method public static void 'an int32 into a local of int64'() cil managed {
    .locals init (int64)
    ldc.i4.1  stloc.0  ret }
  .method public static void 'an int64 into it'() cil managed { .locals init (int64) ldc.i8 1 stloc.0 ret }
  .method public static void 'an int32 where a native int is wanted'() cil managed {
    ldc.i4.1  call void U::TakeN(native int)  ret }
  .method public static void 'an interface where a class is wanted'(class I) cil managed {
    ldarg.0  call void U::TakeA(class A)  ret }
  .method public static void 'an interface where an object is wanted'(class I) cil managed {
    ldarg.0  call void U::TakeO(object)  ret }
  .method public static void 'null where a class is wanted'() cil managed { ldnull call void U::TakeA(class A) ret }
  .method public static int32 'a wrong type at ret'() cil managed { ldnull ret }
  .method public static class A[] 'an array of a derived class'(class B[]) cil managed { ldarg.0 ret }
  .method public static class B[] 'an array of a base'(class A[]) cil managed { ldarg.0 ret }
  .method public static void 'two classes with one interface meet at an object, which has none'(bool) cil managed {
    ldarg.0  brtrue.s L  ldnull  castclass A  br.s J  L: ldnull  castclass C  J: call void U::TakeI(class I)
    ret }
  .method public static void 'two classes meet at an object'(bool) cil managed {
    ldarg.0  brtrue.s L  ldnull  castclass A  br.s J  L: ldnull  castclass C  J: call void U::TakeO(object)  ret }
  .method public static void 'a class and its base meet at the base'(bool) cil managed {
    ldarg.0  brtrue.s L  ldnull  castclass A  br.s J  L: ldnull  castclass B  J: call void U::TakeI(class I)
    ret }
  .method public static void 'two boxed values meet'(bool, valuetype S) cil managed {
    ldarg.0  brtrue.s L  ldarg.1  box S  br.s J  L: ldarg.1  box S  J: unbox S  pop  ret }
  .method public static void 'a number and null meet at nothing'(bool) cil managed {
    ldarg.0  brtrue.s L  ldnull  br.s J  L: ldc.i4.0  J: pop  ret }
  .method public static void 'a modifier changes nothing'(int32 modopt(A)) cil managed {
    ldarg.0  call void U::Take4(int32)  ret }
  .method public static void 'a boxed value has its interfaces'(valuetype S) cil managed {
    ldarg.0  box S  call void U::TakeI(class I)  ret }
  .method public static void 'a boxed number is an object'() cil managed {
    ldc.i4.1  box int32  call void U::TakeO(object)  ret }
  .method public static void 'a number out of its box'(object) cil managed {
    ldarg.0  unbox.any int32  call void U::Take4(int32)  ret }
  .method public static void 'a boxed value of a variable is an object'<U>(!!0) cil managed {
    ldarg.0  box !!0  call void U::TakeO(object)  ret }
  .method public static void 'an enum is its number'(valuetype E) cil managed {
    ldarg.0  call void U::Take4(int32)  ret }
  .method public static void 'an element of an enum over bool as a bool'(valuetype EB[]) cil managed {
    ldarg.0  ldc.i4.0  ldelem bool  pop  ret }
  .method public static void 'an element of an enum over bool as a byte'(valuetype EB[]) cil managed {
    ldarg.0  ldc.i4.0  ldelem.u1  pop  ret }
  .method public static void 'an element as its base and as its interface'(class B[]) cil managed {
    ldarg.0  ldc.i4.0  ldelem A  pop  ldarg.0  ldc.i4.0  ldelem I  pop  ret }
  .method public static void 'an element of another class'(class A[], class C) cil managed {
    ldarg.0  ldc.i4.0  ldarg.1  stelem A  ret }
  .method public static void 'an element of another width'(float32[], float64) cil managed {
    ldarg.0  ldc.i4.0  ldarg.1  stelem.r8  ret }
  .method public static void 'a catch begins with its class'() cil managed {
    .try a to b catch A handler b to c
    a: leave.s c  b: call void U::TakeA(class A)  leave.s c  c: ret }
  .method public static void 'which may be cast'() cil managed {
    .try a to b catch A handler b to c
    a: leave.s c  b: castclass I  pop  leave.s c  c: ret }
  .method public static void 'and is no other'() cil managed {
    .try a to b catch [mscorlib]System.Exception handler b to c
    a: leave.s c  b: call void U::TakeA(class A)  leave.s c  c: ret }
  .method public static void 'a value type is caught in its box'() cil managed {
    .try a to b catch S handler b to c
    a: leave.s c  b: unbox S  pop  leave.s c  c: ret }
}
