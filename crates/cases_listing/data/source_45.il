.assembly extern mscorlib { }
.assembly A { }
.class public ab extends [mscorlib]System.Object { .class nested public cd extends [mscorlib]System.Object { } }
.class public G<(ab/cd) T> extends [mscorlib]System.Object { .field public int32 modreq(ab/cd) F }