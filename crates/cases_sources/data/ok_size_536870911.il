.assembly extern mscorlib { }
.assembly A { }
.field int32[536870911] F