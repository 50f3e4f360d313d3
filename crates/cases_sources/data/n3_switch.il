.assembly extern mscorlib { }
.assembly A { }
.method static void M() cil managed { switch (A, X) A: ret }