.assembly extern flags(0x100) mscorlib {  }
.assembly extern flags(0x100) Lib1 as K1 { .publickeytoken = (01 02) }
.assembly extern System.Runtime { .publickey = (0A) .culture "de" + "x" }
.assembly my.asm { .hash algorithm 0 .publickey = () }
.class abstract sealed serializable flags(0x100) interface C0 {

}
.class public import beforefieldinit  C1 {

}
.class explicit ansi  C2<+ (!!3) T, U> {
.property valuetype C0 p6() { .custom default !!0 'add'<[1]>() = () }
.pack 8
.field static literal object f1
}
.class abstract sealed unicode  C3<valuetype class T, T> extends !!3 {
.field specialname specialname !T x.y = uint64(0)
.param type [2]
.field privatescope private flags(7) typedref modopt(C2) f1
.field public flags(7) class [my.asm]C0 f18
.method final uint64 m16([in] int32 modopt(class C2)[] ) cil managed { .try { ldloc.s 255 nop }
filter { endfilter nop } { ldind.i1 nop }
  L0:
  throw
  .try { { ldarg.0 } conv.u nop }
catch C1 { refanyval C2
  .try { ldelem.i1 nop }
finally { ldarg.s 255 nop }
filter { blt.s L0 nop } handler L0 to L0 nop }
filter { .custom valuetype [K1]X/Y<float64> C2::.ctor(int32[][]) = (01 00) nop } { unbox typedref nop }
  ldc.i8 1
  endfinally
  conv.ovf.u2.un
  ldfld int32 C1::f0
  ckfinite
  newobj instance !!0 C0::.ctor()
  .entrypoint
  ble.un.s L0
  br.s L0
  { stloc.3 }
  ldloca.s v0
  arglist
  brinst L0
  mul
  .maxstack 65535
  ldc.r8 float64(0x4004000000000000)  ret }
.method strict static object m7<- M, + M>(!!M b) cil managed preservesig internalcall { bge.s L9
ldelem.i4
L8:
bge.un.s L9
.custom instance class C3 pinned modreq(C3) C0::'add'() =(0A)
.custom int32&& [System.Runtime]X::'add'(native uint modopt([my.asm]C1)&) = (01 00)
conv.i2
L9:
ldind.r8
rethrow
.param [1]
ldelem.u1
castclass C3
ret
stfld class [System.Runtime]X 'add'
conv.r4
ldc.i4.2
switch (L8, L8, L8)
ldloc.3
blt L9  ret }
}