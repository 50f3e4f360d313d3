.assembly extern mscorlib { }
.assembly A { }
.method static void M() cil managed { .entrypoint { .entrypoint } ret }