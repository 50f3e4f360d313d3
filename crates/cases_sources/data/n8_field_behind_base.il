.assembly extern mscorlib { .hash = (FF) .locale "q" }
.assembly flags(1) A { .custom void [mscorlib]X::.ctor() = (01) }
.module M.dll
.imagebase 0x10000
.subsystem 2
.class sequential  C0<+ T, T> extends !!3 implements int32&, !T, C0 {
.field specialname native int f2 at d0
.method specialname static class C1<class C1<class C1>, string pinned> m33() cil managed {  }
.method strict int32 m17([opt] [opt] valuetype C1<!T, int32[]> v0) cil managed noinlining { .maxstack 0
  bgt.s L8
  { br.s L8
  L8: }
  brnull.s L8
  ldc.i4.6
  .custom instance valuetype [A]C1 C1::x.y(class C1) =(0A)
  ldloc.1
  .param [0] = int8(0)  ret }
}
.class public import  C1<+ T, + ([A]C0) U> {
.property specialname specialname instance class [mscorlib]X/Y p0() { .custom instance explicit int32[][] m2(object[,-2...], class C0<unsigned int8> modopt(C0)) = (01 00) }
.method instance int32 s0(int32) cil managed { }
.field initonly !!3 f19
.method instance int32 s1(int32) cil managed { }
.property specialname rtspecialname instance int32[] p3(class C0) = float64(-9223372036854775808) { .custom vararg class C0<valuetype C1>* m2(native uint[-1], native int, ...) = () }
.field [4294967295] uint64 f1 = float32(1)
}