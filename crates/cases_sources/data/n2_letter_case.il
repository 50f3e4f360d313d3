.assembly extern flags(0x100) mscorlib { .ver 1:2:3:65535 }
.assembly flags(1) A { .hash algorithm 0x8004 .publickey = () }
.stackreserve 0xFFFFFFFF
.class sequential import  C0<T> extends C0 implements C0 {
.custom instance class C0[1...3,4,,...] C0::x.y(bool, class [A]C0 modreq(typedref&))
.class nested private serializable interface C2<T, + .ctor U> extends int32& implements bool, C0, class C0 {
.param type [7]
.method typedref m33([opt] valuetype C0 v0, class C0 b) cil managed { conv.ovf.i1.un
L0:
ldarg.3
L1:
stelem.i2
.entrypoint
beq.s L0
conv.ovf.u8  ret }
.field static native uint modreq(C0) f6
.field flags(65535) class C0<valuetype C0, !!0> f3
.method instance typedref modreq(C0) m7<class + flags(0x100) M>(class C0<class [mscorlib]N.G`1, string> ) cil managed preservesig internalcall { stloc.s 0 ldc.i4.m1 L8: .param type M brfalse.s L8 call bool valuetype [Mscorlib]System.Object<native int, class C0>::x.y() .custom instance explicit class C0 [mscorlib]System.ValueType::m1<[1]>(native uint, uint64, ...) = (01 00) L9: .locals init (void a) newobj vararg int32[][] m2(!!65536, object) conv.ovf.u4 ldelem.r8 ldelem.r4 ldloc.s a bge.s L9 switch () .maxstack 8 ldc.i4.2 ldelem.u8 .custom default valuetype [nope]X C0::m1(int32[][]) = ()  ret }
.param type [2]
}
.method instance int32 s0(int32) cil managed { }
}
.custom instance explicit char m0<[1]>() =(0A)