.assembly extern mscorlib { }
.assembly A { }
.method static void M() cil managed { ret .param [1] }