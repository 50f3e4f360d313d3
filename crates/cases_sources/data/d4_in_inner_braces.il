.assembly extern mscorlib { }
.assembly A { }
.method static void M() cil managed { A: nop { A: } ret }