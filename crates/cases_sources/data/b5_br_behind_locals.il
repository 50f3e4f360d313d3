.assembly extern mscorlib { .hash = (FF) .locale "q" }
.assembly extern netstandard { .publickeytoken = (01 02) }
.assembly A { .custom void [mscorlib]X::.ctor() = (01) }
.subsystem 65535
.corflags 11
.class abstract sealed unicode  C0<- T, - + U> extends C1 {
.property instance class C0<float64> modopt(C0) p3(bool) = float32(0) {  }
.property unsigned int8 pinned modreq(valuetype C0 modopt(C0)) p5() {  }
.size 0
.field [8] uint64 modreq(class C1) x.y
.method instance int32 s0(int32) cil managed { }
.method newslot final static valuetype C0<float64, valuetype C1> .ctor([opt] flags(1) valuetype C1<class C0[]> v0) cil managed { .param [1] flags(1) L0: L1: L2: L3: ret }
}
.class public import serializable interface C1<class T, .ctor class (C0) U> {
.custom string C0::.ctor()
.field class [A]C1 f0
.field compilercontrolled object modopt(bool) f0
}
.method hidebysig valuetype [A]C1 m21(void v0) cil managed { newarr C0 sub.ovf.un volatile. cpblk .locals () L8: unaligned. 0x7f ldloc 65535 conv.ovf.u2 switch () conv.ovf.u1.un ldind.i ldc.i4.2 .custom default int32[][] C1::'add'<[1]>(void, int32) = (01 00) .custom instance int32[][] m1(class C0, ..., class C0) =(0A) bgt.un.s L8 stelem.any int32& stelem.r8 conv.ovf.u2.un sub  ret W: br W2 W2: }