.assembly extern mscorlib { }
.assembly A { }
.class C extends [a]D { } .class D { }