.assembly extern mscorlib { }
.assembly A { }
.method static void M() cil managed { .try A to A finally handler A to B A: nop B: ret }