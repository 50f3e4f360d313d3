.assembly extern mscorlib as K0 { .publickey = (0A) .culture "de" + "x" }
.assembly my.asm { .hash algorithm 0 .publickey = () }
.stackreserve 0xFFFFFFFF
.class public serializable unicode  C0 extends [K0]X/Y {
.class beforefieldinit beforefieldinit  C3<class class flags(7) T> extends C1 {
.method newslot class C1 m1<+ valuetype M, - M>([in] int32[] b, native int v1) cil managed preservesig internalcall { ldarg.3 switch (L0, L0, L0) brtrue L0 L0: cpblk endfilter ldfld native int x.y stsfld unsigned int8[2...1] C0::x.y  ret }
.field private valuetype C1<uint64, float64[]> f2
.size 4294967295
}
}
.class sequential interface C1 {

}
.field public compilercontrolled class C0 f6 = float64(1)
.custom uint64 x.y() = (01 00)