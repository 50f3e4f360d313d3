// Locals, arguments and members, and pointers to them.
.assembly extern mscorlib { }
.assembly extern Test { }
.assembly Test { }

.class interface public abstract I { }
.class public A implements I {
  .method public specialname rtspecialname instance void .ctor() cil managed { ret }
  .method public static void Sm() cil managed { ret }
  .method public instance void Im() cil managed { ret }
}
.class public sealed S extends [mscorlib]System.ValueType implements I {
  .field public int32 x
  .field public static int32 s
  .method public specialname rtspecialname instance void .ctor() cil managed { ret }
  .method public instance void V() cil managed { ret }
}
.class public G<P> {
  .field public !0 f
  .field public static !0 g
  .method public specialname rtspecialname instance void .ctor() cil managed { ret }
  .method public instance !0 Get(!0) cil managed { ret }
  .method public static !!0 Id<Q>(!!0, !0) cil managed { ret }
}
.class public sealed V<P> extends [mscorlib]System.ValueType { .field public !0 f }
.class public U {
  .method public static void Take4(int32) cil managed { ret }
  .method public static void TakeS(string) cil managed { ret }
}
.class public T {
  .method public static void 'a local where there is none'() cil managed { ldloc.0 pop ret }
  .method public static void 'a value into a local where there is none'() cil managed { ldc.i4.0 stloc.0 ret }
  .method public static void 'a local that is there'() cil managed { .locals init (int32) ldloc.0 pop ret }
  .method public static void 'a local behind the last'() cil managed { .locals init (int32) ldloc.1 pop ret }
  .method public static void 'an argument where there is none'() cil managed { ldarg.0 pop ret }
  .method public static void 'a value into an argument behind the last'(int32) cil managed { ldarg.0 starg.s 1 ret }
  .method public static void 'a value into the last argument'(int32) cil managed { ldarg.0 starg.s 0 ret }
  .method public instance void 'the object is argument 0'() cil managed { ldarg.0 pop ret }
  .method public instance void 'and the only one'() cil managed { ldarg.1 pop ret }
  .method public instance void 'or the first of two'(int32) cil managed { ldarg.1 pop ret }
  .method public static void 'a new object by a static method'() cil managed {
    newobj void [mscorlib]Far.X::.ctor()  pop  ret }
  .method public static void 'a new object by a method that is no constructor'() cil managed {
    newobj instance void A::Im()  pop  ret }
  .method public static void 'a new object by a constructor'() cil managed { newobj instance void A::.ctor() pop ret }
  .method public static valuetype S 'a new value'() cil managed { newobj instance void S::.ctor() ret }
  .method public static string 'a new string'() cil managed {
    ldc.i4.1  ldc.i4.1  newobj instance void string::.ctor(char, int32)  ret }
  .method public static void 'a virtual call of a static method'() cil managed { callvirt void A::Sm() ret }
  .method public static void 'a virtual call of a method of objects'(class A) cil managed {
    ldarg.0  callvirt instance void A::Im()  ret }
  .method public static void 'a method of a value type on the value itself'(valuetype S) cil managed {
    ldarg.0  call instance void S::V()  ret }
  .method public static void 'and on a pointer to it'(valuetype S) cil managed {
    ldarga.s 0  call instance void S::V()  ret }
  .method public static void 'a static field of an object'(valuetype S) cil managed {
    ldarga.s 0  ldfld int32 S::s  pop  ret }
  .method public static void 'a field of objects as a static one'() cil managed {
    ldsfld !0 class G<int32>::f  pop  ret }
  .method public static void 'a static field with its class argument put in'() cil managed {
    ldsfld !0 class G<int32>::g  call void U::Take4(int32)  ret }
  .method public static void 'a static field of a class elsewhere'() cil managed {
    ldsfld int32 [mscorlib]Far.Q::z  pop  ret }
  .method public static void 'a field of a value elsewhere through a pointer'(valuetype [mscorlib]Far.Q) cil managed {
    ldarga.s 0  ldfld int32 [mscorlib]Far.Q::z  pop  ret }
  .method public static void 'its address from the value itself'(valuetype [mscorlib]Far.Q) cil managed {
    ldarg.0  ldflda int32 [mscorlib]Far.Q::z  pop  ret }
  .method public static void 'a field of a value itself'(valuetype S) cil managed { ldarg.0 ldfld int32 S::x pop ret }
  .method public static void 'a value into a field of a value itself'(valuetype S) cil managed {
    ldarg.0  ldc.i4.0  stfld int32 S::x  ret }
  .method public static void 'a field of a generic value'(valuetype V<int32>) cil managed {
    ldarg.0  ldfld !0 valuetype V<int32>::f  call void U::Take4(int32)  ret }
  .method public static void 'the address of a field of a generic value from the value itself'
    (valuetype V<int32>) cil managed {
    ldarg.0  ldflda !0 valuetype V<int32>::f  pop  ret }
  .method public static void 'a method with its class argument put in'(class G<string>) cil managed {
    ldarg.0  ldnull  call instance !0 class G<string>::Get(!0)  call void U::TakeS(string)  ret }
  .method public static void 'and null where that is a number'(class G<int32>) cil managed {
    ldarg.0  ldnull  call instance !0 class G<int32>::Get(!0)  pop  ret }
  .method public static void 'a method with its own argument put in'() cil managed {
    ldnull  ldc.i4.0  call !!0 class G<int32>::Id<string>(!!0, !0)  call void U::TakeS(string)  ret }
  .method public static void 'and with a variable put in'<U>(!!0) cil managed {
    ldarg.0  ldc.i4.0  call !!0 class G<int32>::Id<!!0>(!!0, !0)  starg.s 0  ret }
  .method public static void 'a pointer to an argument that is a pointer'(int32&) cil managed { ldarga.s 0 L: br.s L }
  .method public static void 'a pointer to an argument'(int32) cil managed { ldarga.s 0 pop ret }
  .method public static void 'a pointer to a local that is a pointer'() cil managed {
    .locals init (int32&)
    ldloca.s 0  pop  ret }
  .method public static void 'a pointer to a local'() cil managed { .locals init (int32) ldloca.s 0 pop ret }
  .method public static int64 'a field of the type of its class argument'(class G<int64>) cil managed {
    ldarg.0  ldfld !0 class G<int64>::f  ret }
  .method public static void 'a static field of an object, by the name of the image'(valuetype S) cil managed {
    ldarga.s 0  ldfld int32 [Test]S::s  pop  ret }
  .method public static void 'and with a modifier'(valuetype S) cil managed {
    ldarga.s 0  ldfld int32 valuetype S modopt(A)::s  pop  ret }
  .method public static void 'a field of objects as a static one, by the name of the image'() cil managed {
    ldsfld !0 class [Test]G<int32>::f  pop  ret }
  .method public static void 'a field of objects of a class elsewhere as a static one'() cil managed {
    ldsfld int32 [mscorlib]S::x  pop  ret }
  .method public static void 'a static field that has another type'(valuetype S) cil managed {
    ldarga.s 0  ldfld int64 S::s  pop  ret }
}
