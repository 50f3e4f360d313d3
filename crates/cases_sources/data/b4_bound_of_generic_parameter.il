.assembly extern mscorlib { .publickey = (0A) .culture "de" + "x" }
.assembly extern Lib { .publickeytoken = (01 02) }
.assembly A { .custom void [mscorlib]X::.ctor() = (01) }
.class public  C0<.ctor (int32[][][][][][][][][][][][][][][][][][][][][][][][][][][][][][][][][][][][][][][][][][][][][][][][][][][][][][][][][][][][][][][][][][][][][][][][][][][][][][][][][][][][][][][][][][][][][][][][][][][][]) T> {
.method instance int32 s0(int32) cil managed { }
.method instance int32 s1(int32) cil managed { }
.method typedref m52<.ctor M, valuetype (typedref[]) K>() runtime managed { L0: conv.ovf.i2 ldarg.3 L1: L2: L3: ret }
.field specialname notserialized int32 f2
.param type [1]
.field bool pinned f0 = "a" + "\n"
}