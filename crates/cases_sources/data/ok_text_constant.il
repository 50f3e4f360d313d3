.assembly extern mscorlib { }
.assembly A { }
.class C { .field int32[1,2...] Fx = "ab" }