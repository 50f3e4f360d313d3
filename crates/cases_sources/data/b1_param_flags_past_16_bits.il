.assembly extern mscorlib { }
.assembly A { }
.method static void M() cil managed { ret .param [0] flags(0x10000) }