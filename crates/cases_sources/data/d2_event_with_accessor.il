.assembly extern mscorlib as K0 { .hash = (FF) .locale "q" }
.assembly flags(1) T { .custom void [K0]X::.ctor() = (01) }
.class sequential unicode interface C0 extends C2 {
.property specialname instance int32 p3() = "" {  }
.size 0
.custom unsigned int8 [T]C3::m0() = (01 00)
}
.class abstract sealed serializable  C1<class T, U> extends [K0]System.ValueType {
.method instance int32 s0(int32) cil managed { }
.method hidebysig instance !!3 m18() cil managed noinlining flags(0x100) { L0:
  L1:
  .param [0] flags(1) = bool(true)
  L2:
  L3:
  .locals ([0] !U )
  sub.ovf.un
  switch ()
  conv.ovf.u
  ldfld !T f1
  { endfilter bge.un L2 }
  bge L1
  ldc.i8 1
  leave.s L0
  endfilter
  .entrypoint
  ldarg.s 0
  leave L2
  .maxstack 65536
  ldarga 0  ret }
.pack 128
.data D0 = int8(256)
.field initonly !U f1
.pack 128
}
.class public import beforefieldinit  C2 implements class C0, [T]Nope {
.pack 0
}
.class  C3<class .ctor (C1) T> {
.field initonly class C1<class C3> f0
.event specialname C2 e2 {  }
.field static int32& f2
.pack 0
.method instance int32 s0(int32) cil managed { }
.event specialname C3 e2 { .addon instance int32 C3::s0(int32) }
}