.assembly extern mscorlib as K0 { .publickeytoken = (01 02) }
.assembly extern System.Runtime { .ver 1:2:3:4 }
.assembly extern flags(0x100) Lib2 as K2 { .publickey = (0A) .culture "de" + "x" }
.assembly retargetable A {  }
.class abstract sealed import serializable flags(1)  N.C0 extends class [A]C1 {
.pack 1
}
.class serializable  C0 extends float64 {
.property specialname int32& p4() {  }
.field static literal initonly int32 modreq(object)& f2
.field [4294967295] privatescope !!0 f19
.method instance int32 s0(int32) cil managed { }
.pack 128
.data cil D0 = float64(1)
}
.class sequential  C2<valuetype flags(65535) (!65536) T> {
.field private native unsigned int f2 = char(1)
.data cil D1 = int8(1)
.pack 8
.method instance int32 s0(int32) cil managed { }
.method specialname static native int[]& m42() cil managed { ldarg.s 0 L0: ldc.i4.6 brfalse L0 ble.s L0 blt L0 ldarg 0 ldind.u2 conv.u8 conv.ovf.u4 ldelem.u1 .locals () shl ble.un L0 stelem.i2 ldarga 300 stind.i2 shl { .custom instance explicit !!Zz[...] m0<[3]>(char)
stelem.i8 } switch (L0, L0)  ret }
.field flags(0x100) object[,] f26
}
.class  C3<class valuetype ([K2]System.ValueType) T, - U> extends class C1 {
.method abstract instance class [A]C1 pinned m20([in] !!3 a) cil managed noinlining { stind.ref
  br.s L8
  ldobj class [K0]N.G`1<class [K2]System.ValueType, float64> L8: L9: ret }
.property specialname rtspecialname instance valuetype [K0]X/Y p8(int32[]) = bool(false) { .get int32 C0::nope() .custom vararg class C2 class [K2]X::m0<[1]>() }
.event specialname C0 e0 {  }
.field [8] static uint64 f1 = "a" + "\n"
.event specialname C0 e0 {  }
.field initonly compilercontrolled valuetype C2<int32> f1 = ""
}