.assembly extern mscorlib { .ver 1:2:3:4 }
.assembly A { .custom void [mscorlib]X::.ctor() = (01) }
.subsystem 2
.corflags 11
.class public interface C0<+ T> extends int32& implements [A]C0 {
.method reqsecobj flags(0x100) virtual instance typedref m18(int32[][] ) cil managed { L0:
  leave L1
  br L0
  stind.r4
  L1:
  ldc.i4.5
  br L1
  .maxstack 8  ret }
}
.class abstract sealed interface C1<+ .ctor T> {
.size 4294967295
.method instance int32 s0(int32) cil managed { }
.param type T
.field static literal valuetype C0 pinned f0
.class beforefieldinit flags(1)  C3<class T, + flags(1) T> implements valuetype C1, !!3 {
.data D0 = float32(-1)
}
.size 5
}
.data D0 = int8(1)
.field static literal privatescope unsigned int8 f2