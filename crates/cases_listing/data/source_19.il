.assembly extern mscorlib { }
.assembly A { }
.method static void M() cil managed { ldc.i4 -5 ldc.i4.s 200 ldc.i8 -1 ldc.r4 float32(0x3f800000) ldc.r8 (00 00 00 00 00 00 F0 3F) ldarg.s 7 starg 65535 unaligned. 1 volatile. ldind.i4 tail. nop brnull.s L L: endfault }