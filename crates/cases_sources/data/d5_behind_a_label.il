.assembly extern retargetable mscorlib as K0 { .publickey = (0A) .culture "de" + "x" }
.assembly my.asm {  }
.file alignment 4096
.class public import interface 'C.0'<.ctor T> extends C0 {
.size 0
.field compilercontrolled class C0 f0
.method instance int32 s0(int32) cil managed { }
.field static literal private int32&& f2
.pack 8
.method instance int32 s1(int32) cil managed { }
}
.class abstract sealed import serializable  C1 extends int32[] implements int32[][], C1 {
.field privatescope compilercontrolled flags(0x100) float64 f9
.property rtspecialname instance int32 p4() { .custom int32 pinned& C0::x.y() }
.field notserialized unsigned int8 f0
.method hidebysig static vararg float64 m11<M, M>(class [K0]System.ValueType v0, [opt] [opt] !!M* b, float64 v2) cil managed noinlining flags(0x400) { .entrypoint L0: .entrypoint  ret }
.method abstract virtual instance class C1 m17<+ (C1) M, + - (C1) K>([out] class C1<typedref modreq(typedref)> v0) cil managed noinlining { .locals init ([0] int32 a, [2] int32[][] v1) L8: ret ldelem.ref .param [0] flags(1) = uint8(0) { br.s L8 } endfilter ldelema class [K0]X/Y[0...] brfalse L8 br.s L8 cgt ldelem.any int32[][][][][][][][][][][][][][][][][][][][][][][][][][][][][][][][][][][][][][][][][][][][][][][][][][][][][][][][][][][][][][][][][][][][][][][][][][][][][][][][][][][][][][][][][][][][][][][][][][][][] refanyval [my.asm]C1 br L8 .try { .maxstack 65535 stloc.3 nop }
finally { brnull.s L8 nop } conv.ovf.u .locals () ldfld !1 f1 stelem void .custom instance explicit int32 modopt(C1) C0::'add'() = (01 00)  ret }
.method instance int32 s0(int32) cil managed { }
}
.field public flags(7) !1 modopt([K0]System.ValueType) f0
.method abstract specialname static native unsigned int m0([in] class C1 modopt(C1) modopt(C1) ) runtime managed { stloc.s 1 L16: L17: L18: L19: ret }