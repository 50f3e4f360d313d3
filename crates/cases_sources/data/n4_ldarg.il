.assembly extern mscorlib { }
.assembly A { }
.method static void M() cil managed { ldarg x ret }