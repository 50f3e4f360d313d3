.assembly extern mscorlib { }
.assembly A { }
.method static void M([in] int32, [out][opt] int32 b, flags(0x1000) int32, int32) cil managed { ret }