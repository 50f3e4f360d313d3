.assembly extern mscorlib { }
.assembly A { }
.field int32 F = int8(255)