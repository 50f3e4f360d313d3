.assembly extern mscorlib { }
.assembly A { }
.method static void '.ctor'() cil managed { call void '.ctor'() call instance void [mscorlib]System.Object::.ctor() ldsfld int32 g ldfld int32 class [mscorlib]L<int32>::'.ctor' ret }
.field static int32 g