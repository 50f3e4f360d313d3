.assembly extern mscorlib { }
.assembly A { }
.method static void 'add'() cil managed { ret }