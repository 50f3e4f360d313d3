.assembly extern mscorlib { }
.assembly A { }
.field int32 F = float32(0x100000000)