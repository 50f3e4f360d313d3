.assembly extern mscorlib { }
.assembly A { }
.field [0x100000000] int32 F