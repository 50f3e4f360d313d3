.assembly extern mscorlib { }
.assembly A { }
.method static void M() cil managed { ldc.r8 2.5 ret }