.assembly extern mscorlib { }
.assembly A { }
.data float32(0x100000000)