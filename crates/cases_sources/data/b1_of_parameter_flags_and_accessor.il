.assembly extern mscorlib { }
.assembly A { }
.class public C extends [mscorlib]System.Object {
.property int32 P(int32) {
.get int32 C::get(int32)
}
.method int32 get(flags(70000) int32) { ldc.i4.0 ret }
}