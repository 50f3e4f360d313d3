.assembly extern mscorlib { }
.assembly A { }
.method static !!U M<T, U>(!!T) cil managed { ret }