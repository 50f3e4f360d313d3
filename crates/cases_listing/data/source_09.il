.assembly extern mscorlib { }
.assembly A { }
.method static int32 M([in] int32 a, [out] [opt] int32& b, flags(0x2000) object, string) cil managed noinlining flags(0x400) { .param [0] flags(1) = int32(5) .param [2] = nullref .param [4] .custom instance void [mscorlib]P::.ctor() .maxstack 3 .locals init (int32 x, [1] string[] y) ldloc x ret }