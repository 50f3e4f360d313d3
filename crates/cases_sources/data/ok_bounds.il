.assembly extern mscorlib { }
.assembly A { }
.field int32[2...9,-5...-4] F