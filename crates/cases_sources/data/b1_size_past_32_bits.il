.assembly extern mscorlib { }
.assembly A { }
.class C { .size 0x100000000 }