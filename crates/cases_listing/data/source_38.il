.assembly extern mscorlib as K0 { .ver 1:2:3:4 }
.assembly retargetable T { .hash algorithm 0x8004 .publickey = () }
.class explicit ansi import  C0<.ctor - T, ([T]C2) T> extends [T]C0 {
.field privatescope private valuetype [K0]N.G`1<native int, native uint>[5] f17
}
.class sequential unicode  C1<flags(0x8000) T, class U> {
.custom class C1 C1::x.y(int32, native int) = (01 00)
.field !!3[2...1] f11
.method instance int32 s0(int32) cil managed { }
.data cil D0 = float32(-1)
.method instance int32 s1(int32) cil managed { }
.field [8] compilercontrolled static literal flags(7) uint64 f2
}
.class sequential beforefieldinit  C2 extends native unsigned int modopt(int32) {

}
.class abstract sealed serializable interface C3<- T, - + T> {
.field static literal int16 f0 at D0
.method instance int32 s0(int32) cil managed { }
.class serializable flags(0x8000)  C5 {
.method instance int32 s0(int32) cil managed { }
.method strict valuetype C0<valuetype C1<int32, class [K0]X>, typedref> m27<.ctor (C3) M>(int32& v0) cil managed { .param type M L0: L1: ret }
.method char .ctor() cil managed { L8: L9: ret }
.method reqsecobj static string m27<- .ctor M, class - M>() cil managed { L16:  ret }
.method hidebysig virtual instance string m53(int32 a) cil managed preservesig internalcall {  }
.method newslot instance int32 m10(class C0[5,2...] b, class C1 a) runtime managed {  }
}
}
.method public flags(1) instance class C0 .cctor(bool v0) cil managed preservesig internalcall { L40: L41: ret }
.custom vararg int32 m0() =(0A)