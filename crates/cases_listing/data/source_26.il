.assembly extern mscorlib { }
.assembly A { }
.class flags(0x20) I extends [mscorlib]X { }