.assembly extern mscorlib { .ver 1:2:3:4 }
.assembly extern Lib as K1 { .hash = (FF) .locale "q" }
.assembly my.asm {  }
.class abstract sealed beforefieldinit beforefieldinit  C0<T> {
.method final instance explicit int32[][] m12(int32 a) cil managed noinlining { L0: conv.ovf.u.un neg  ret }
.size 0
.method !!0 m9(!T v0)  { L8: L9: L10: ldarg v0 ldarga.s v0 L11: ldobj class C3 modopt(uint64) ldsfld float64 f1 ble.un.s L10 ldelem.ref conv.r8 ldc.i4.5 beq L9 br.s L11 endfault stsfld unsigned int8 modreq(class C3) C1::f1 refanyval native int modopt(C3) .override !T::m0 .entrypoint .maxstack 65535  ret }
.field public class C0 x.y
.method reqsecobj static !T[5] .cctor<.ctor M>(string a, [out] !!M b) cil managed noinlining { L16: L17: call int32 'add'(uint64, !!M[5,2...]) ldc.i4.s 255 stelem.r8 ldc.i4.0 mul { .try { .override method instance explicit valuetype C2 modopt([K1]N.G`1)[0...] m0(valuetype C0<valuetype C3<class C2, bool>>) nop }
filter { localloc nop } { throw
  bge L17 nop }
fault { brzero.s L16 nop } }  ret }
.field notserialized initonly int32 f2
}
.class abstract sealed import  C1 extends C3 {
.method instance int32 s0(int32) cil managed { }
.field [8] static literal private native unsigned int f0
.class nested public serializable import  N.C5<([mscorlib]System.ValueType) T> {
.method newslot instance explicit native uint .cctor<M, M>(native int b, [out] void b) runtime managed {  }
}
.method instance class C2<!!M> m1<class M, (C3) M>(class C0 a, void a, !!M modopt(C3) v2) cil managed { L32: L33: L34: L35: ret }
.size 5
.property rtspecialname specialname flags(7) !!M p8(uint64) { .set instance int32 C1::s0(int32) .get instance int32 C1::s0(int32) }
}
.class explicit ansi beforefieldinit  C2<class .ctor T> {
.custom class C2 x.y(typedref[5], int32&) = ()
}
.class explicit ansi unicode beforefieldinit  C3 extends [mscorlib]System.Object {
.method instance int32 s0(int32) cil managed { }
.method public specialname instance explicit valuetype C2 m17<- (C1) M, - M>() cil managed noinlining { starg 65535 L40: ldnull L41: ret }
.property specialname !!M p5(!1) = float64(-9223372036854775808) { .set instance int32 C3::s0(int32) .custom vararg unsigned int8 pinned class C2<valuetype C0>::.ctor(!!M, int32[][][1...3,4,,...]) = (01 00) }
}