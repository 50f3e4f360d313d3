.assembly extern flags(0x100) mscorlib as K0 { .ver 1:2:3:4 }
.assembly extern retargetable Lib1 { .publickeytoken = (01 02) }
.assembly A { .ver 1:0:0:0 }
.stackreserve 0
.class sequential beforefieldinit serializable flags(65535)  C0<T, class U> {
.field int32& f1 = char(65535)
.field specialname valuetype C2<native uint*> x.y
.method instance int32 s0(int32) cil managed { }
.event specialname C0 e1 { .addon instance int32 C0::s0(int32) }
.param type [2]
.method instance int32 s1(int32) cil managed { }
}
.class public beforefieldinit unicode interface C1 extends [A]C0 {
.event specialname C0 e3 {  }
}
.class unicode  C2 implements !!3, string {
.property specialname !!3 p6() {  }
.size 4294967295
.size 5
.method instance int32 s0(int32) cil managed { }
.class nested public flags(0x100)  C5<+ + flags(0x8000) T> extends C3 implements C2, object, [Lib1]X/Y {
.method abstract int32 .ctor<class - M, class valuetype K>(class C2 a, int32&* b, [opt] [in] native int b)  { leave.s Z nop nop nop nop nop nop nop nop nop nop nop nop nop nop nop nop nop nop nop nop nop nop nop nop nop nop nop nop nop nop nop nop nop nop nop nop nop nop nop nop nop nop nop nop nop nop nop nop nop nop nop nop nop nop nop nop nop nop nop nop nop nop nop nop nop nop nop nop nop nop nop nop nop nop nop nop nop nop nop nop nop nop nop nop nop nop nop nop nop nop nop nop nop nop nop nop nop nop nop nop nop nop nop nop nop nop nop nop nop nop nop nop nop nop nop nop nop nop nop nop nop nop nop nop nop nop nop nop  Z : ret }
}
.method !1 m54<class M, K>([opt] flags(1) class C3<valuetype [Lib1]System.ValueType<float64>> a, [opt] [in] native int v1, [out] flags(7) object modopt(C1) v2) cil managed { L8: L9: L10: L11: ret }
}
.class explicit ansi unicode  C3<valuetype T> implements uint64, int32, [A]C0 {
.method instance int32 s0(int32) cil managed { }
}
.method abstract specialname virtual instance string m13<(C1) M, class flags(1) K>(float64 a) cil managed noinlining { ldflda !!K C0::'add' L16: ldarg.3 blt.un L18 sub.ovf.un L17: ldelem.i .maxstack 0 .locals () L18: ldc.r4 float32(1) .try { .custom !0 valuetype [K0]System.ValueType[2...1]::m1(int32, ...) = () nop }
catch C2 { .custom default int32 C1::.ctor() = ()
.try { conv.ovf.u1.un and nop }
fault { conv.ovf.u1 nop }
filter { L19: nop } { stloc.2
  switch () nop } nop } conv.u4 .entrypoint stelem.i1 stind.ref ldc.i4.8 .maxstack 65535 brzero.s L17 ldind.u2  ret }
.custom default class C3 float64::x.y()