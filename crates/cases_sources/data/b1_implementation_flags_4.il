.assembly extern mscorlib { }
.assembly A { }
.method static void M() cil flags(4) { ret }