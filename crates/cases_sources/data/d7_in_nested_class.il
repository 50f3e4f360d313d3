.assembly extern mscorlib { }
.assembly A { }
.class C { .data Q = int8 .class D { .data Q = int8 } }