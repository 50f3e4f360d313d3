.assembly extern mscorlib { .ver 1:2:3:4 }
.assembly retargetable my.asm { .ver 1:0:0:0 }
.class explicit ansi flags(1)  C0 {
.field specialname private flags(0x8000) class [my.asm]C0 x.y
.method static !!M m47<flags(65535) ([mscorlib]X) M, K>(native unsigned int b, [in] [out] flags(7) native uint , [in] void* ) cil managed preservesig internalcall { .custom instance explicit native unsigned int C1::m0() =(0A) L0: L1: ret }
.method flags(7) instance explicit class [mscorlib]N.G`1<int32, int32> pinned m33<M>(!65535 a)  { conv.ovf.i8
  L8:
  L9:
  xor
  .param [1] flags(1) = bool(false)
  L10:
  ldind.r8
  .entrypoint L11: ret }
.data cil D0 = int32(0x01020304)
.method instance explicit bool modreq(C1) m29([opt] [in] valuetype C3<valuetype C3> v0, [opt] [out] string v1) cil managed noinlining { L16: {  } ldelem.i8 refanyval class [mscorlib]System.ValueType { .try { L17: nop }
finally { L18: nop }
finally { stloc.0 L19: nop } { blt L17 } } sub.ovf stfld class C0<int32> f1 ldelema typedref shr mul .try { volatile.
  ldftn !0 'add'() nop }
filter { {  }
  div nop } { .maxstack 8
stelem.i2 nop }
fault { conv.ovf.i4.un
  ldarg.s 0 nop } bne.un.s L16 ldelem.r4 ldloc 300 arglist .locals init ([2] !65535 a, class [mscorlib]X a) rem.un .locals () ldloc v0 ldelem class C3  ret }
.field class C1 f19
}
.class sequential unicode interface C1<.ctor .ctor T, .ctor U> extends C3 implements C2 {
.param type T
}
.class public  C2<(C1) T> extends char implements native int*, [mscorlib]N.G`1 {
.field [4294967295] class [my.asm]C3<valuetype C1>* f1
.method specialname flags(0x100) virtual instance native unsigned int m16<+ flags(7) M, - M>() cil managed { xor L24: ret }
.field initonly int16 f12 at D0
}
.class public beforefieldinit  C3<+ T, valuetype (C2) U> extends C3 {
.field object f1
.method abstract public static vararg char m23<valuetype + M, - K>(class [my.asm]C2<unsigned int8> v0, char v1, !T v2) runtime managed { .maxstack 0 L32: L33: ret }
.param type T
}