.assembly extern mscorlib { .ver 1:2:3:65535 }
.assembly retargetable T { .ver 1:0:0:0 }
.corflags 3
.class sequential  C0<.ctor T, valuetype + U> extends unsigned int8 {
.param type [2]
.data D0 = int8(1)
.method instance explicit string& m26<M>([opt] [opt] int32 a, int32[][] a) cil managed { beq L1 L0: L1: ret }
.method object pinned m19<M, M>() cil managed preservesig internalcall { newarr class C0
L8:
br L8
bge.un.s L8
endfilter
ldelem.ref
conv.ovf.i4.un
.maxstack 65535
clt.un
rethrow
nop
.custom default !!M native int modopt(int32)::'add'<[1]>()
ldelem.u1
conv.ovf.u1.un
stind.i4
conv.u8
stind.i4
ldelem.i8
leave L8
br L8  ret }
.field privatescope char x.y = int32(1) at D0
.class nested public unicode  C5 {
.event specialname [T]C0 e6 {  }
.field specialname valuetype C2[] f24
.event specialname [mscorlib]X e2 {  }
}
}
.class unicode beforefieldinit interface C1 implements void pinned {

}
.class beforefieldinit flags(0x8000) interface C2<valuetype class flags(65535) T, class U> extends C0 implements C1, C3 {
.custom int32& m1<[3]>() = (01 00)
}
.class beforefieldinit beforefieldinit flags(7)  C3<valuetype T, + U> extends C3 {
.field specialname public int32 f0 = nullref
.method specialname instance explicit valuetype C0 modreq(int32) .cctor<valuetype (C3) M>(!!M , unsigned int8 b, !U a) cil managed noinlining { L16: { stelem.i8
stelem.i1 } L17: L18: L19: ret }
.field flags(7) int8 f2 = uint8(-128) at D0
}