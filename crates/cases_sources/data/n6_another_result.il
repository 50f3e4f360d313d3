.assembly extern mscorlib { }
.assembly A { }
.class C { .method int32 get() { } .property int32 P() { .get int64 C::get() } .class D { .method int32 get() { } } }