.assembly extern mscorlib { }
.assembly A { }
.class public flags(6) C { }