.assembly extern mscorlib { }
.assembly A { }
.method static void M() cil managed { call void M() ret }