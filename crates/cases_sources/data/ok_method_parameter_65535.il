.assembly extern mscorlib { }
.assembly A { }
.field !!65535 F