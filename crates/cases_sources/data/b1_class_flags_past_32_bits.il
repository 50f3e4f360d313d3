.assembly extern mscorlib { }
.assembly A { }
.class flags(0x100000000) C { }