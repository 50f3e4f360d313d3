.assembly extern mscorlib { }
.assembly A { }
.class C { .field [8] public int32 F }