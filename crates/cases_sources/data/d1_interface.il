.assembly extern mscorlib as K0 {  }
.assembly retargetable my.asm { .hash algorithm 0x8004 .publickey = () }
.class public unicode  C0 {
.field static public !65535 f29
.method static class C0<!65535, int32[][]> m51<.ctor + M>([out] native uint b, valuetype C1<int32[][]> b, object v2)  {  }
.method reqsecobj hidebysig static valuetype C0<native int> m1<.ctor - flags(0x8000) (int32[]) M, class K>(int32 b) cil managed noinlining { .param [1] flags(0x1002)
  .locals ()
  unaligned. 1 L8: ret }
.class nested private beforefieldinit  C3<class T> implements [my.asm]C1, uint64, C1 {
.property specialname rtspecialname instance bool p8() = "a" + "\n" {  }
.field int32 f29 = bool(true)
.custom int32& m1() =(0A)
.custom instance explicit int32[] C0::x.y(valuetype C1<native uint>*) =(0A)
.data cil D0 = { int8(1), int16(0x203) }
.event valuetype C0 e5 {  }
}
.method instance int32 s0(int32) cil managed { }
.property flags(65535) uint64 p2(!1) { .set instance int32 C0::s0(int32) .custom default string class C1 pinned::m1(valuetype [K0]X/Y, native uint) }
}
.class abstract sealed serializable import interface C0 extends string {

}