.assembly extern mscorlib as K0 {  }
.assembly T {  }
.subsystem 65535
.class explicit ansi  C0<class (bool) T, .ctor T> extends [T]C3 {
.method reqsecobj virtual instance valuetype C1<typedref> .ctor(int32[] v0) cil managed noinlining { stelem.r8 L0: ret }
.field private initonly flags(0x8000) class [T]C3<int32> f0
.field public valuetype C2[] f1
}
.class serializable flags(0x100)  C1<- T, .ctor (class [K0]System.ValueType) T> extends C3 {
.class nested public unicode unicode interface C5<flags(7) T> {
.method flags(0x100) static vararg !!3 m0(!!0 , !T v1)  { L8: call instance explicit int32 C0::.ctor(int32[][], native int[,-2...] modopt(C1)) L9: L10: L11: ldarg.s 0x10 .try { rem
  bgt L10 nop }
catch C3 { br L8 nop } ldelem.u4  ret }
.field int32 pinned modreq([K0]System.Object) f27 = float64(-9223372036854775808)
.method instance int32 s0(int32) cil managed { }
.method instance int32 s1(int32) cil managed { }
.pack 0
.custom int32 valuetype C3::m0(native unsigned int, int32&) = (01 00)
}
}
.class explicit ansi serializable  C2<T> extends C2 implements C3, C2, C2 {
.method private static vararg void m39(valuetype [K0]N.G`1 ) cil managed { ldarg.s 1
  brtrue.s L19
  stloc.2
  L16:
  br.s L17
  ldarg.s 0x10
  shr.un
  .try { .param [1] = uint8(0) conv.ovf.i2.un nop }
catch C0 { .entrypoint nop }
filter { throw nop } { { .locals init (int32 v0, !T[0...] ) }
  castclass unsigned int8 nop }
  ldloc.2
  not
  ckfinite
  ldfld class C3 'add'
  ldind.i1
  conv.u1
  ldc.i4.0
  bgt.un L19
  conv.r4
  ldelem.i8
  {  }
  ldind.ref  ret }
.data D0 = float64(1)
.method abstract flags(0x100) static !!M .ctor<valuetype .ctor M>(int32& modreq(valuetype [T]C3 modreq(native uint)) ) cil managed noinlining flags(0x100) {  }
}
.class abstract sealed unicode beforefieldinit  C3 extends int32 {
.field privatescope flags(0x8000) char f0
}
.custom instance explicit !65535 [K0]X/Y::m0<[1]>() = (01 00)