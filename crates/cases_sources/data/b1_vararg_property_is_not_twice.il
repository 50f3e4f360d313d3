.assembly extern mscorlib { }
.assembly A { }
.class C { .property vararg int32 P() { } .property vararg int32 P() { } }