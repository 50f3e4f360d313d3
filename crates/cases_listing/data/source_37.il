.assembly extern mscorlib as K0 { .hash = (FF) .locale "q" }
.assembly extern my.asm { .ver 1:2:3:65535 }
.assembly flags(1) my.asm {  }
.file alignment 4096
.class sequential unicode  C0 implements [my.asm]C3, C0, class C1 {
.property instance int32 p1() { .custom instance float64 x.y<[1]>(valuetype C0) = (01 00) }
.property rtspecialname specialname string p4() = char(65535) {  }
.method static vararg native unsigned int m2<flags(1) (C1) M, .ctor K>([opt] class C2<!!K, !1> a, !!M v1) cil managed preservesig internalcall { conv.ovf.u8.un
L0:
.param [2]
L1:
.param type M
.try { .entrypoint nop }
catch C0 { L2: nop }
filter { ldvirtftn vararg native unsigned int modopt(C3)[1...3,4,,...] int32::'add'() nop } { L3:
  ldfld native uint[,-2...] 'add' nop }
sub
ldarg 0  ret }
}
.class import  C1<T, - (float64 modreq(C0)) T> extends void implements [my.asm]X, C1, C1 {
.property specialname instance valuetype C0 p1() = bool(false) {  }
}
.class explicit ansi import unicode interface C2<.ctor - T, .ctor T> extends C3 {
.method reqsecobj bool m16([out] class C2 a) cil managed noinlining { .param [0] flags(1) brinst.s L8 mul L8: ret }
.pack 8
.method instance int32 s0(int32) cil managed { }
}
.class public  C3 {

}
.field private class C3 f1