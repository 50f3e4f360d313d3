.assembly extern mscorlib { .publickeytoken = (01 02) }
.assembly extern flags(0x100) Lib { .ver 1:2:3:65535 }
.assembly flags(1) T { .hash algorithm 0x8004 .publickey = () }
.subsystem 65535
.class abstract sealed unicode unicode interface C0<class flags(0x100) ([mscorlib]N.G`1) T, (int32[][]) T> extends C0 {
.field compilercontrolled int32 f2
.class nested public serializable  C3 {
.custom vararg uint64 C0::'add'()
}
.method private final static int32[] m27<(C1) M, K>(native int v0, [in] !!K b) cil managed { L0:
  .override valuetype C0<valuetype C0>::.ctor
  ldelem.i8
  br.s L0
  conv.ovf.i1
  .maxstack 0
  conv.i4
  ldelem.u4  ret }
.method instance int32 s0(int32) cil managed { }
.data cil D0 = int8[-1]
.method newslot flags(0x100) instance explicit class C1 .cctor<M, + flags(0x100) (C1) M>([opt] [out] flags(0x8000) int32[][][][][][][][][][][][][][][][][][][][][][][][][][][][][][][][][][][][][][][][][][][][][][][][][][][][][][][][][][][][][][][][][][][][][][][][][][][][][][][][][][][][][][][][][][][][][][][][][][][][] , int32 pinned[2...1] , int32& ) runtime managed { L8:
  {  }
  ble.un L9
  .custom instance !!M 'add'<[1]>(valuetype C1 modreq(!T)) = ()
  .entrypoint
  .override C1::m0
  shr.un
  stloc.3 L9: ret }
}
.class explicit ansi unicode import  C0 extends C1 {
.method hidebysig static vararg typedref m25() runtime managed flags(0x100) { ldind.r4
  L16:
  brtrue.s L16
  leave.s L16
  conv.u
  .custom vararg valuetype [mscorlib]X<float64> [nope]X::'add'() = (01 00)
  rem.un
  stind.i
  .override method default unsigned int8 C0::m0(int32[][])
  .override method instance explicit valuetype C1 [T]C0::.cctor()
  brinst.s L16
  .try { .try { }
catch C0 { stind.r4 nop }
finally { br L16 leave L16 nop } nop }
fault { ldloc 65535 nop }
  rem.un
  conv.i1
  cgt
  or
  ldelem.r4
  .try {  nop }
filter {  nop } { stind.i2 nop }
  bge.un Q14
  .try { conv.u leave.s L16 nop }
catch [mscorlib]System.Object { .param [0] = "a" + "\n" nop }  ret }
.custom vararg int32 'add'<[3]>(...)
.custom vararg class C1 C0::x.y(int32[]) = (01 00)
.field privatescope !1 pinned f2 = uint64(18446744073709551615)
.method static object .ctor(native unsigned int a, [in] native unsigned int v1, [opt] int32[] b) cil managed { L24:
readonly.
ldind.u1
br L24
ldtoken [Lib]N.G`1
isinst C0
brtrue.s L24
stind.i2  ret }
.field typedref f1
}