.assembly extern flags(0x100) mscorlib { .hash = (FF) .locale "q" }
.assembly extern flags(0x100) Lib { .ver 1:2:3:65535 }
.assembly extern flags(0x100) System.Runtime { .publickeytoken = (01 02) }
.assembly T { .hash algorithm 0 .publickey = () }
.imagebase 0x10000
.class beforefieldinit  N.C0 extends bool {
.field private class C0[,-2...] f5
}
.class  C1<+ (class [Lib]System.ValueType<class [T]C1>) T> extends string modreq(C0) {
.method newslot flags(65535) instance explicit bool m1<class .ctor (C1) M>() cil managed noinlining { L0:
ldelem.r4
L1: L2: L3: ret }
}