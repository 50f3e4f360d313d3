.assembly extern mscorlib {  }
.assembly retargetable my.asm { .custom void [mscorlib]X::.ctor() = (01) }
.module M.dll
.imagebase 0x10000
.class public serializable beforefieldinit  C0<- T, class valuetype U> extends C0 implements [mscorlib]N.G`1, class C0, [my.asm]C0 {
.size 4294967295
.event void e5 {  }
.method instance int32 s0(int32) cil managed { }
.method public instance explicit int32 m16<- flags(1) (C0) M, flags(65535) M>(int32[][] modreq(C0) , !!M b, [out] valuetype [Mscorlib]System.Object<int32[][]> b) cil managed { endfinally L0: L1: ret }
.field valuetype C0 f1
.method instance int32 s1(int32) cil managed { }
}