.assembly extern mscorlib { }
.assembly A { }
.class public C extends [mscorlib]System.Object {
.method static void M(flags(70000) int32) { ret }
.method static void M(flags(70000) int32) { ret }
}