.assembly extern mscorlib {  }
.assembly extern retargetable Lib { .ver 1:2:3:4 }
.assembly flags(1) my.asm {  }
.module M.dll
.corflags 11
.class public flags(1) interface C0<valuetype T, class - flags(1) U> extends [my.asm]C0 implements C0 {
.field static valuetype C0<class [mscorlib]System.Object, uint64 modopt(C0)> f0
.data D0 = float32(-1)
.size 4294967295
.size 4294967295
.method class C0 m37(class [Lib]System.Object v0, valuetype C0[5,2...] , unsigned int8 a) cil managed { L0:
  L1:
  .maxstack 0 L2: L3: ret }
.method instance int32 s0(int32) cil managed { }
}
.data D1 = uint8[9]
.field specialname flags(0x100) int16 f0 = uint64(-9223372036854775808) at Dn