.assembly extern mscorlib {  }
.assembly A {  }
.imagebase 0xF0000000
.class explicit ansi import serializable  C0 {
.pack 128
.class nested public unicode serializable  C3 extends C0 {

}
.method instance explicit string m1<- (C0) M, class M>(int32 b, [opt] flags(1) class C0 b) cil managed flags(0x100) {  }
}
.class public import  C1<T> {
.method private virtual instance class C0 m0<M>([in] native unsigned int a) cil managed flags(0x400) { mul.ovf
brnull L9
starg a
dup
L8:
stelem.i
.override C0::.ctor
.maxstack 8 L9: L10: L11: }
.event specialname C1 e5 {  }
.method reqsecobj static class C0 .cctor<+ flags(7) M, valuetype class M>(!!M v0) cil managed preservesig internalcall flags(0x100) { stind.i8 ldind.i8 .maxstack 65535 .locals () ldind.i8 .custom default native unsigned int native uint&::m0(bool) L16: .maxstack 65535 L17: L18: .locals init (!!M , typedref a) stind.i4 .override method native int x.y<[3]>() mkrefany native unsigned int .override C0::.ctor add.ovf.un L19: throw .custom class C1 C0::'add'(class C0 modopt(valuetype C1<native unsigned int>)) =(0A) .locals ([2] !!M v2, class C1<native int modopt(native unsigned int)> v3)  ret }
}