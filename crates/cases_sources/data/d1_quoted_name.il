.assembly extern mscorlib { }
.assembly A { }
.class a.b { } .class 'a'.'b' { }