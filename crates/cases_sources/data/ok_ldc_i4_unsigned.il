.assembly extern mscorlib { }
.assembly A { }
.method static void M() cil managed { ldc.i4 0xFFFFFFFF ret }