.assembly extern mscorlib { }
.assembly A { }
.field !T F