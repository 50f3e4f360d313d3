.assembly extern mscorlib { }
.assembly A { }
.class ldc.i4.x { } .class c.d.'in' { } .class 'a..b'.C { } .class N.'1' { }