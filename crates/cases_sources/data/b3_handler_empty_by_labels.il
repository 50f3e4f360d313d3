.assembly extern flags(0x100) mscorlib { .ver 1:2:3:4 }
.assembly my.asm { .custom void [mscorlib]X::.ctor() = (01) }
.file alignment 0x200
.class abstract sealed flags(1) interface C0<- T, - valuetype ([mscorlib]N.G`1) U> {
.method int32 m1(object a)  { conv.u2
  .override class C0<int32>::.ctor
  .maxstack 8
  conv.ovf.i8.un
  L0:
  .try { conv.ovf.i nop }
finally handler L0 to L0
  L1:
  stloc.3 L2: L3: ret }
.method virtual instance valuetype C0 m9<flags(1) M>(int32[][] b, [opt] !!M[...,5] )  { ceq
ldloc.0
L8: L9: ret }
.method public instance explicit !!0 m1(int32[][][][][][][][][][][][][][][][][][][][][][][][][][][][][][][][][][][][][][][][][][][][][][][][][][][][][][][][][][][][][][][][][][][][][][][][][][][][][][][][][][][][][][][][][][][][][][][][][][][][] v0, !T b, int32[] b) cil managed { cgt.un L16: ret }
}