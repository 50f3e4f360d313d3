.assembly extern mscorlib { .ver 1:2:3:4 }
.assembly extern Lib1 as K1 { .publickeytoken = (01 02) }
.assembly flags(1) A { .ver 1:0:0:0 }
.module M.dll
.class explicit ansi beforefieldinit  C0 extends [mscorlib]System.ValueType implements native int, valuetype [K1]N.G`1 {

}
.class abstract sealed import  C1<- .ctor (C2) T, class + U> extends C2 implements [K1]System.ValueType, !!0, C1 {
.param type T
}
.class explicit ansi import  C2 implements C2, C2 {
.method public virtual instance string m53<valuetype valuetype M, M>(class C2 b) cil managed {  }
.field compilercontrolled flags(65535) int32[] f27
.field specialname string f2
.field int32[][][][][][][][][][][][][][][][][][][][][][][][][][][][][][][][][][][][][][][][][][][][][][][][][][][][][][][][][][][][][][][][][][][][][][][][][][][][][][][][][][][][][][][][][][][][][][][][][][][][] f4
.field [4294967295] compilercontrolled valuetype [mscorlib]X f10
.property rtspecialname specialname void&[] p0() = int8(255) { .get int32 C0::nope() }
}
.class sequential beforefieldinit  C3 extends class [mscorlib]System.Object modopt(unsigned int8) {
.method instance explicit !!M[5,2...] m28<- .ctor M>(valuetype C2<typedref> v0) cil managed preservesig internalcall flags(0x100) { L8: .override method default !0 x.y() .maxstack 65535 ldc.i4 4294967295 ldelem.u2 .entrypoint br.s L8 blt.un.s L8 ldind.u4 ldelem.i2 .try { brtrue L8 nop }
finally handler L8 to L8 break ldsflda bool f0 .maxstack 65535 unaligned. 0 ldloc 65535 .try { localloc nop }
finally { ldloc 300 nop }
catch C3 { cpblk nop } .param [0] flags(1) = bool(false) .override method instance int32[] C3::.ctor() arglist  ret }
}
.method specialname class C2 m0<- flags(65535) M, class flags(65535) M>([in] class C3<!65535> b, string v1, class C2 a) cil managed { mul.ovf
ldarg.s 1
L16:
mul.ovf
L17:
stelem.r4
stelem.i2
ldelem.u4  ret }