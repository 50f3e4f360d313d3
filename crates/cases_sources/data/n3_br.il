.assembly extern mscorlib { .hash = (FF) .locale "q" }
.assembly extern my.asm as K1 { .hash = (FF) .locale "q" }
.assembly extern flags(0x100) netstandard { .publickeytoken = (01 02) }
.assembly my.asm {  }
.class beforefieldinit beforefieldinit flags(7)  C0<valuetype flags(0x100) (class C0<int32>) T, class (C3) U> extends class C2 {
.size 0
}
.class explicit ansi import  C1 extends C3 {
.method instance native uint[5,2...] modopt(char modopt(int32)) .ctor<.ctor M, .ctor - (C2) K>(int32 ) cil managed { bgt.un.s L1
L0:
br.s Q1
.entrypoint
.custom instance class C0 C2::m0<[3]>(int32, class C0[5,2...]) = ()
stelem.r4
L1:
L2:
mul
br.s L1
ldloc 300
blt.s L0
L3:
endfinally
stind.i1
{ .locals init (int32[][] , [1] void ) }
ldind.u4
ble.un L2
.override [K1]X::.ctor
ldind.i2  ret }
.property rtspecialname instance valuetype [netstandard]N.G`1 p8() {  }
.event specialname C3 e2 {  }
.method specialname static !65535 .cctor<- M>(uint64 b, [in] native uint modopt(native int) pinned , typedref a) cil managed preservesig internalcall flags(0x100) {  }
.method newslot static vararg !0 m1<class M>([in] native unsigned int v0)  {  }
.method specialname private static !!K pinned .ctor<(class C0) M, .ctor K>(class C0 a) runtime managed {  }
}
.class serializable  C2<T> extends !!M implements [my.asm]C1, C0, float64 {

}
.class abstract sealed import interface C3<.ctor + T, .ctor T> extends C3 implements native int, unsigned int8[], C3 {
.method public public float64 m22<M, - class K>(string v0)  { L32:
.custom instance int32 int32[]::.ctor(float64)
dup
L33:
ldc.i4.1
.custom instance native unsigned int [K1]X::m0<[1]>() = ()
.custom instance class C2 'add'(..., int32) = (01 00)
tail.
ldarg.3
{ mul.ovf }
leave L33
bge.un L33
.param [0]
ldind.u2
rem
call instance !T float64::.cctor(!T)
ldc.i4.4
ldc.i4.1
stloc.0
.param [1] = char(65535)  ret }
.event specialname flags(1) [K1]N.G`1 e2 {  }
.method instance int32 s0(int32) cil managed { }
.data D0 = bytearray (01 02 03 04)
.event specialname specialname C3 e8 {  }
.field notserialized class C3<uint64> x.y = bool(false)
}