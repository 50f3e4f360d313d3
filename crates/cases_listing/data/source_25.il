.assembly extern mscorlib { }
.assembly A { }
.class interface I implements K { } .class interface K { } .class public abstract C implements K, I, [mscorlib]Z, I, class I { }