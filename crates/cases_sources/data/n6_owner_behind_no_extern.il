.assembly extern mscorlib { }
.assembly A { }
.class C extends [mscorlib]System.Object {
.method int32 get() { ldc.i4.0 ret }
.property int32 P() {
.get
int32 [Zz]C::get()
} }