.assembly extern mscorlib {  }
.assembly retargetable my.asm { .hash algorithm 0 .publickey = () }
.class public beforefieldinit  C0<- (C3) T, + valuetype flags(1) U> extends !!3 implements class [mscorlib]System.Object<bool>, C0 {
.class nested private serializable  C5 extends !!0 implements [mscorlib]N.G`1, int32[][] {
.pack 1
.method abstract virtual instance !0 m0(int32 a, object b, valuetype C2 v2) runtime managed {  }
.event specialname native uint& e3 {  }
}
.event specialname specialname C1 e8 {  }
.method instance int32 s0(int32) cil managed { }
}
.class abstract sealed  C1<.ctor T, valuetype T> extends C3 implements C0, [mscorlib]X {
.method hidebysig instance explicit !!M m0<class - M>()  { L8:
  ldarg.1
  .locals (int32[][] v0)
  L9:
  .param type M
  L9:
  endfilter
  {  } L11: }
.class nested public unicode  C6<+ T, (object) T> extends class [mscorlib]N.G`1<object, class C0> implements int32[] {

}
.method instance int32 s0(int32) cil managed { }
.method instance int32 s1(int32) cil managed { }
.method class [mscorlib]System.Object m50(class [mscorlib]N.G`1 b)  { or blt.un L17 .maxstack 8 brzero.s Q15 .try { conv.i nop }
fault { .try {  nop }
fault { } nop }
catch int32[][] { L17: nop } ldelema C1 ldarg.s 1 div pop dup ldind.u1 add conv.ovf.i2.un .try { bgt L17
  isinst [my.asm]C0 nop }
filter { stloc.3 nop } { } { .maxstack 8
mkrefany [my.asm]C0 } pop nop br L17 xor .custom vararg class [mscorlib]N.G`1<class C0> C1::x.y(unsigned int8, int32[,]) = ()  ret }
.method newslot static vararg float64 m1<.ctor M, + class (object) K>(int32& a) cil managed {  }
}
.class public serializable unicode interface C2<flags(1) T> extends [my.asm]C1 {
.method strict static typedref m1<M, class - (int32[]) M>([in] int32& v0) runtime managed { .entrypoint L32: L33: L34: L35: }
}
.class public beforefieldinit  C3 extends C3 implements !65535 {
.method instance int32 s0(int32) cil managed { }
}