.assembly extern mscorlib { }
.assembly A { }
.field flags(0x10000) int32 F