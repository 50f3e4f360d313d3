.assembly extern retargetable mscorlib { .publickey = (0A) .culture "de" + "x" }
.assembly flags(1) A { .custom void [mscorlib]X::.ctor() = (01) }
.corflags 11
.class abstract sealed import interface C0<.ctor T, class U> {
.property rtspecialname instance class C0[][0...] p2() { .get int32 C0::nope() .custom vararg native unsigned int modreq(C0) C0::.ctor<[3]>(!T) }
.method abstract static !!K m0<M, + .ctor ([mscorlib]N.G`1) K>(int32 v0, [opt] [out] !!M , int32[][][][][][][][][][][][][][][][][][][][][][][][][][][][][][][][][][][][][][][][][][][][][][][][][][][][][][][][][][][][][][][][][][][][][][][][][][][][][][][][][][][][][][][][][][][][][][][][][][][][] v2) cil managed preservesig internalcall { conv.ovf.u8
L0:
beq.s L0  ret }
.field flags(0x8000) object f2
.class nested private  C2 extends C0 {

}
.class nested public unicode interface C3<.ctor T, + T> {
.class unicode  C4 extends C0 {
.method newslot flags(0x8000) instance explicit native unsigned int m49<M, .ctor M>(uint64 , uint64 v1)  {  }
.pack 0
.method static valuetype C0<bool> m27([opt] [out] class [nope]X a) cil managed preservesig internalcall { L16: L17: L18: L19: ret }
}
.field private initonly valuetype C0<class C0<class C0>> f2
.method instance int32 s0(int32) cil managed { }
}
.method specialname specialname static !!0 .cctor([in] class C0 v0) cil managed noinlining { conv.i8
L24:
ldelema char&
.entrypoint
ldflda !!3 f1
brinst L26
L25:
bge.s L26 L26: L27: ret }
}