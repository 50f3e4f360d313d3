.assembly extern mscorlib { }
.assembly A { }
.class C { .pack 8 .pack 4 }