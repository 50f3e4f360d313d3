.assembly extern flags(0x100) mscorlib { .ver 1:2:3:65535 }
.assembly extern flags(0x100) A { .hash = (FF) .locale "q" }
.assembly A { .ver 1:0:0:0 }
.file alignment 4096
.file alignment 0x200
.subsystem 2
.subsystem 65535
.class public unicode  C0 implements !65535, class C0<bool> {
.field private flags(7) class [A]C0 f1
.method reqsecobj public static vararg class C1<!65535> .ctor(string b) cil managed noinlining { { L0: .entrypoint } L1: .param [1] = uint8(255)  ret }
.method valuetype C0 m44(int32[][] a, class [A]System.ValueType , flags(1) unsigned int8 ) cil managed noinlining { br L8
.override method default int32& x.y()
{ stelem.i8 L8: }
stfld class C1<bool> x.y
L9:
.maxstack 65535
ldloc.1
call instance void modreq(!1) C0::m0(...)
.override method !65535 C0::x.y()
.maxstack 8
ldelem.u4
conv.ovf.u2
.param [0] = int8(1)
readonly.
ldfld unsigned int8 modreq([A]C1) C0::'add'
ldelem.ref
{  }
or
stind.i1
conv.r4  }
.data cil D0 = { int8[67108864], int8 }
.data cil D1 = int8(1)
.event [A]C1 e0 {  }
}
.class public import import  N.C1 extends !!3 implements C0, int32 {

}
.field int32[][] f15
.data cil D0 = int8[-1]