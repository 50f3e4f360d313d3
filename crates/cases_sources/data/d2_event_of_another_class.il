.assembly extern retargetable mscorlib as K0 { .publickeytoken = (01 02) }
.assembly retargetable A { .custom void [K0]X::.ctor() = (01) }
.module M.dll
.corflags 11
.corflags 1
.class public beforefieldinit beforefieldinit  C0<flags(7) T, valuetype + flags(0x100) (C0) T> extends C3 {
.size 0
.param type T
.size 5
}
.class explicit ansi beforefieldinit  C1<flags(65535) T, class T> {
.data cil D0 = int16(-1)[2]
.custom default bool modreq([K0]X/Y) m0()
.event specialname C0 e4 {  }
.event specialname C3 e4 {  }
.method instance int32 s0(int32) cil managed { }
.field public flags(1) !!0 f0
}
.class public unicode  C2 extends class C2<uint64> {
.class nested private unicode interface C5<+ T, valuetype T> extends C3 {

}
.class nested public serializable import  C6<class T, .ctor (C2) T> {
.param type T
.param type [2]
.field specialname static valuetype C1<int32[][]> f1
.method private hidebysig static vararg class C0 modopt(int32[][]) m44<- flags(65535) (C3) M, .ctor valuetype K>(native uint a) cil managed { unbox [A]C2
L0:
ldloc.1
ckfinite
pop
.param type M
ldc.i8 0x7f
ldloc.1
ldarga.s 0
bgt.s L0
stind.i2
conv.ovf.u4
ldloc 0
brnull L0
ldsflda object [K0]System.ValueType::x.y
brinst.s L0
leave L0
clt.un
div
.param [1]  ret }
.field flags(65535) char f1 at D0
.event flags(0x8000) int32[] e5 {  }
}
.field static int16 f10 = "a" + "\n" at D0
}
.class abstract sealed  C3<.ctor (C1) T, T> {
.field privatescope class C3<!!M> f2
.method instance int32 s0(int32) cil managed { }
.method reqsecobj instance explicit int32 m50<valuetype M, class flags(7) K>() cil managed preservesig internalcall { .custom instance explicit !!M int32::.ctor() =(0A)
ldind.u4
L8: L9: ret }
.field compilercontrolled private !!K f0
.method instance int32 s1(int32) cil managed { }
.data cil D1 = float32(-1)
}
.data cil D2 = int8(1)
.custom instance explicit string int32 modreq(C3)::.ctor<[1]>(int32) = ()