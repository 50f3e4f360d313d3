.assembly extern mscorlib { }
.assembly A { }
.method static void M() cil managed { ldstr bytearray (00 D8) ret }