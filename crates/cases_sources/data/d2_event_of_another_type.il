.assembly extern mscorlib { }
.assembly A { }
.class C { .event C E { } .event [mscorlib]X E { } }