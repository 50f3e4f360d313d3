.assembly extern retargetable mscorlib as K0 { .publickeytoken = (01 02) }
.assembly extern retargetable Lib {  }
.assembly extern flags(0x100) Lib2 {  }
.assembly my.asm { .custom void [K0]X::.ctor() = (01) }
.assembly my.asm { .custom void [K0]X::.ctor() = (01) }
.corflags 11
.class explicit ansi serializable unicode interface C0<T> extends C0 {
.method static typedref pinned m1(object , int32 a)  { .entrypoint
  mkrefany C1
  L0:
  .try { blt L0 cgt nop }
catch valuetype C0 pinned { bne.un Q36
ldloc.3 nop }
  stelem.r8
  .locals init (native unsigned int )
  initblk
  cgt.un
  mul
  ldnull
  ldind.ref
  .try { { ldelem.i4
or }
  .entrypoint nop }
fault { stelem.r4 nop }
filter { { ceq }
  .custom default valuetype C1[...] C3::x.y<[1]>() = () nop } { ldind.u4 nop }
  blt L0
  ldind.r4
  .custom instance explicit string*& m2(native unsigned int&, int32) = (01 00)
  ldarg.s a
  ldind.i8
  tail.
  conv.r.un
  break  ret }
.field unsigned int8 pinned f0
.class beforefieldinit  C5 implements native uint[], [Lib]X/Y, void {
.method instance int32 s0(int32) cil managed { }
}
}
.class abstract sealed interface C1<T, + U> extends object implements C2 {

}
.class sequential serializable serializable flags(1)  C2<T, class (void) U> {
.field [4294967295] notserialized flags(1) !!3 f14
.field compilercontrolled initonly class C1 f2
.size 5
.field int32& f1
.event specialname C1 e3 {  }
.field private int32& f2
}
.class public  C3<valuetype class T, valuetype + T> extends C2 {
.field public void x.y
.data D0 = { bytearray (FF), int64 }
.method private virtual instance !!M .cctor<class M>(char modopt(C2) a) cil managed preservesig internalcall { ldc.i8 18446744073709551615
  .param [0]
  .param type M L8: ret }
.method instance int32 s0(int32) cil managed { }
.field static literal bool modreq(class C3 modreq(class C2)) f1
.method instance int32 s1(int32) cil managed { }
}
.method instance explicit valuetype C2 m1(class C3&& a)  { { L16: initobj native int }
L17:
L18: L19: }