.assembly extern System.Runtime as K0 { .publickeytoken = (01 02) }
.assembly extern retargetable Lib { .publickeytoken = (01 02) }
.assembly A { .ver 1:0:0:0 }
.corflags 1
.class explicit ansi beforefieldinit  C0 extends C0 {
.method instance int32 s0(int32) cil managed { }
.data D0 = bytearray (01 02 03 04)
.pack 1
.custom vararg uint64 C0::m1(native int, char)
.field initonly typedref f1
.method abstract abstract static !!M[2...1] m21<flags(7) M, K>(int32[] a) cil managed {  }
}
.method strict flags(65535) static vararg int32* .ctor(string , bool v1, class C0 modopt([A]C0) b) cil managed flags(0x400) { ldind.u8
stloc.s 255
L8: L9: ret W: br W2 W2: }
.custom valuetype C0<valuetype [A]C0<typedref>> C0::m0() =(0A)