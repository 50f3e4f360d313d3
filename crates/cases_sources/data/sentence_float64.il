.assembly extern mscorlib { }
.assembly A { }
.method static void M() cil managed { ldc.r8 float64(0x4004000000000000) ret }