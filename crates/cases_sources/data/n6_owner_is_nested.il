.assembly extern mscorlib { }
.assembly A { }
.class C { .method int32 get() { } .property int32 P() { .get int32 C/D::get() } .class D { .method int32 get() { } } }