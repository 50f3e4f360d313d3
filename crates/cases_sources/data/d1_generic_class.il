.assembly extern retargetable mscorlib {  }
.assembly A { .custom void [mscorlib]X::.ctor() = (01) }
.stackreserve 0
.stackreserve 0xFFFFFFFF
.class explicit ansi import serializable interface C0 extends !!Zz {
.field notserialized uint64 f2
}
.class serializable  C0<T, T> extends class C1 implements bool modreq(C1), C0, C0 {
.method abstract static vararg class C1<int32[], int32&> m54() cil managed { cpobj C1 L0: L1: L2: L3: ret }
.method newslot instance int32[][] m55<+ valuetype M, + K>(native unsigned int , int32[][][][][][][][][][][][][][][][][][][][][][][][][][][][][][][][][][][][][][][][][][][][][][][][][][][][][][][][][][][][][][][][][][][][][][][][][][][][][][][][][][][][][][][][][][][][][][][][][][][][][1...3,4,,...] a, class C1 b) runtime managed { not L8: }
.data cil D0 = int16(-1)[2]
.field static literal class C1 f14 = ""
.method instance int32 s0(int32) cil managed { }
.property specialname rtspecialname int32 p6() = unsigned int16(1) { .set instance int32 C0::s0(int32) .custom vararg native uint C0::m0(int32&, int32) =(0A) }
}