.assembly extern retargetable mscorlib { .publickey = (0A) .culture "de" + "x" }
.assembly extern Lib as K1 { .hash = (FF) .locale "q" }
.assembly retargetable T { .custom void [mscorlib]X::.ctor() = (01) }
.module M.dll
.imagebase 0x10000
.class public beforefieldinit  C0 {
.custom vararg class C0 m0<[1]>(!1, int32& modreq(!0)) =(0A)
.class unicode unicode  C5 {
.event specialname specialname [T]C1 e0 {  }
.method instance int32 s0(int32) cil managed { }
.method private virtual instance char pinned[0...] m0<- valuetype (!!K) M, - K>(!1 b)  { L0:
switch (L1, L1, L0)
conv.ovf.i.un L1: ret }
}
.field public int32[][] f0
.field [8] private int32 f0
.field flags(0x8000) valuetype C1 modreq(C1) f24
.size 5
}
.class abstract sealed serializable unicode  C1 extends !!K {

}
.class sequential import beforefieldinit  C2<+ T, flags(0x8000) T> extends class C1 modopt(C2) {
.field initonly notserialized int32 modopt(!!K) f2
.custom object C0::.cctor(...) = ()
.method instance int32 s0(int32) cil managed { }
}
.class abstract sealed unicode  N.C3<T, class U> extends [T]C1 {
.method final static !!0 m11([opt] flags(0x8000) class C1 modreq([mscorlib]N.G`1) b) cil managed { br.s Z nop nop nop nop nop nop nop nop nop nop nop nop nop nop nop nop nop nop nop nop nop nop nop nop nop nop nop nop nop nop nop nop nop nop nop nop nop nop nop nop nop nop nop nop nop nop nop nop nop nop nop nop nop nop nop nop nop nop nop nop nop nop nop nop nop nop nop nop nop nop nop nop nop nop nop nop nop nop nop nop nop nop nop nop nop nop nop nop nop nop nop nop nop nop nop nop nop nop nop nop nop nop nop nop nop nop nop nop nop nop nop nop nop nop nop nop nop nop nop nop nop nop nop nop nop nop  Z : ret }
}
.method specialname private object modopt(C1)[,] m38<valuetype + flags(0x100) M, + - M>(!65535 , void b) cil managed preservesig internalcall {  }
.field static uint64 modopt(C1) f16