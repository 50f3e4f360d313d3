.assembly extern mscorlib { }
.assembly A { }
.method static void M() cil managed { call void M(..., int64) ret }