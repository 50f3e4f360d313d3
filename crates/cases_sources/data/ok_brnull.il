.assembly extern mscorlib { }
.assembly A { }
.method static void M() cil managed { brnull.s L L: ret }