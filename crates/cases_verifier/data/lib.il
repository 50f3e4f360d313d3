// A library with an enum whose values have int32.
.assembly extern mscorlib { }
.assembly Lib { }

.class public sealed E extends [mscorlib]System.Enum { .field public int32 value__ }
