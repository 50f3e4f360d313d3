.assembly extern flags(0x100) mscorlib { .publickeytoken = (01 02) }
.assembly extern T {  }
.assembly retargetable T { .custom void [mscorlib]X::.ctor() = (01) }
.class abstract sealed unicode flags(7)  C0<+ T, class U> extends [mscorlib]X {
.method strict static vararg valuetype C0<int32, bool>[,-2...] m1<M>(valuetype C0<native int modopt(class C0)> b) cil managed { L0:
  L1:
  br.s L0
  .param [0] = ""
  stelem.ref
  ldftn class [mscorlib]X/Y C0::m0()
  conv.u8
  leave L0  ret }
.method abstract instance explicit unsigned int8 m0<- - M, - flags(7) M>(int32 a, [out] unsigned int8 b, !U )  flags(0x400) { ldelem.i1
L8:
switch (L8, L8, L8)
stind.r8
.try { ble.un.s L8 .param [2] nop }
finally { stind.i8 nop }
newobj vararg valuetype C0<class [mscorlib]N.G`1> int32&::.cctor(native unsigned int)
leave L8
.override C0::m0  ret }
.method public instance explicit class C0 modopt(C0) pinned m10<class (int32) M, class (uint64 modopt([mscorlib]X/Y)) M>(!!M& , !!M , valuetype C0& b) runtime managed {  }
}