.assembly extern mscorlib as K0 {  }
.assembly extern flags(0x100) A { .ver 1:2:3:4 }
.assembly retargetable A { .ver 1:0:0:0 }
.class public import  C0 extends int32[][] {
.class nested public import unicode  C3 extends C0 {
.field static public !!0 x.y
.event specialname specialname C1 e0 {  }
.field bool f2
}
}
.class explicit ansi unicode import  C1 extends valuetype C1 {
.class nested private interface C4 extends C0 {
.field [8] compilercontrolled class C1 modreq(int32&) f1 = uint64(18446744073709551615)
}
.method final static vararg class [A]C1 m43<valuetype M>([in] [out] !!M ) cil managed noinlining { brtrue.s Z nop nop nop nop nop nop nop nop nop nop nop nop nop nop nop nop nop nop nop nop nop nop nop nop nop nop nop nop nop nop nop nop nop nop nop nop nop nop nop nop nop nop nop nop nop nop nop nop nop nop nop nop nop nop nop nop nop nop nop nop nop nop nop nop nop nop nop nop nop nop nop nop nop nop nop nop nop nop nop nop nop nop nop nop nop nop nop nop nop nop nop nop nop nop nop nop nop nop nop nop nop nop nop nop nop nop nop nop nop nop nop nop nop nop nop nop nop nop nop nop nop nop nop nop nop nop nop nop  Z : ret }
.method instance int32 s0(int32) cil managed { }
}
.method strict public virtual instance class C1[]* m37(int32[] b, native uint modopt(class C0) , [in] valuetype [K0]System.ValueType v2) cil managed noinlining { .try { ldc.i4.6 nop }
filter { ble.s L8
  conv.ovf.i.un nop } { L8: nop }
  { .entrypoint bgt.un L8 }
  ldelem.i1
  call instance explicit !0 m1(int32&)
  .locals ()
  ldarg 65535
  stloc 300
  ldloc.3
  throw
  readonly.
  unaligned. 1
  .custom instance void m2() = (01 00)
  conv.ovf.u1.un
  .param [0] flags(0x1002) = bytearray (00 D8 01)
  add
  conv.u2
  .param [2]
  clt.un
  stelem.ref
  .maxstack 65535  ret }
.field initonly privatescope flags(0x100) class C0 x.y