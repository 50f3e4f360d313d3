.assembly extern mscorlib { }
.assembly A { }
.class C extends [A]D { } .class D { }