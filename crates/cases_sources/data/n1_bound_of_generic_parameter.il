.assembly extern mscorlib {  }
.assembly extern flags(0x100) Lib1 { .publickey = (0A) .culture "de" + "x" }
.assembly extern flags(0x100) System.Runtime { .hash = (FF) .locale "q" }
.assembly T { .custom void [mscorlib]X::.ctor() = (01) }
.stackreserve 0
.class abstract sealed beforefieldinit unicode  C0<(native int) T> {
.field int32 f2
}
.class explicit ansi beforefieldinit serializable  C1<class (C2) T> extends [System.Runtime]N.G`1 {
.data cil D0 = { bytearray (FF), int64 }
.field int32[][] x.y
.data cil D1 = int32(0x01020304)
.field initonly bool f6 = bool(true) at D1
.custom instance explicit int32& valuetype [T]C0::m0(int32[][], typedref) = (01 00)
.field int16 x.y = "a" + "\n" at D0
}
.class flags(65535) interface N.C2<class .ctor T, valuetype U> extends int32[] implements uint64, !!3 {
.custom instance int32 m1() =(0A)
.custom instance explicit valuetype C0<typedref*> C1::m0<[3]>(class [Lib1]X pinned pinned) = (01 00)
.param type T
}
.class sequential unicode  a.'b'.C3<valuetype .ctor T> extends C0 {
.size 4294967296
.event specialname specialname flags(1) [T]C1 e0 {  }
.method reqsecobj flags(1) instance float64 .ctor<.ctor ([nope]X) M>(typedref v0, [in] native int b, valuetype C3<object, typedref> v2)  { L0: L1: ret }
.size 5
.method reqsecobj virtual instance char .ctor<valuetype M, flags(1) (C2) K>(bool , [opt] [in] int32[][][0...] v1)  { endfinally L8: L9: ret }
.custom instance valuetype C1& [mscorlib]System.ValueType::'add'(...) = ()
}