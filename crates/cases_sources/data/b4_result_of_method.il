.assembly extern mscorlib { .publickey = (0A) .culture "de" + "x" }
.assembly extern retargetable A { .publickey = (0A) .culture "de" + "x" }
.assembly extern flags(0x100) System.Runtime { .ver 1:2:3:65535 }
.assembly flags(1) A {  }
.class sequential unicode  C0 extends valuetype C0<native unsigned int> implements C0, !0, C0 {
.data bytearray (01 02 03 04)
.method flags(65535) static vararg int32[][][][][][][][][][][][][][][][][][][][][][][][][][][][][][][][][][][][][][][][][][][][][][][][][][][][][][][][][][][][][][][][][][][][][][][][][][][][][][][][][][][][][][][][][][][][][][][][][][][][] m43<.ctor M, + + M>([opt] flags(0x8000) void b, int32[0...] b, void a) cil managed {  }
.method reqsecobj abstract instance int32[] m27<+ (C0) M, M>(!0 a, !!M )  { ldc.i4.3
  ldelema [mscorlib]X/Y
  conv.ovf.i4.un L8: L9: L10: L11: ret }
}
.method newslot static class [A]X/Y m20(float64 a) cil managed { ldlen
.locals ()
ldelem.u2
L16:
.locals init ([0] class [A]C0<void modopt(C0)> a)
L17:
div
ldelem.ref  ret }
.data D0 = int8(1)