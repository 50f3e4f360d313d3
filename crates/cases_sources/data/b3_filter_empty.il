.assembly extern mscorlib { }
.assembly A { }
.method static void M() cil managed { .try { nop } filter { } { nop } ret }