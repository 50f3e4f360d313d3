.assembly extern mscorlib {  }
.assembly extern my.asm as K1 { .hash = (FF) .locale "q" }
.assembly flags(1) my.asm {  }
.module M.dll
.subsystem 2
.corflags 3
.class explicit ansi unicode  C0 extends int32[] {
.custom instance !!0 m1(...) =(0A)
.data int8(1)
.field compilercontrolled bool&& f8 = bytearray (00 D8 01)
.method instance int32 s0(int32) cil managed { }
.property rtspecialname instance native unsigned int p7() = bool(true) {  }
.method strict static int32[2...1] m1(class C0[] a, bool , [out] [opt] int32* pinned b) runtime managed { L0: rethrow .try { ldc.i8 0x7f nop }
catch C0 { ldarg.2 L1: nop }
finally { } ldind.u8 .entrypoint .override method instance explicit !65535 C0::.ctor<[1]>() stobj C0 cgt  ret }
}
.custom instance native unsigned int [K1]X::.ctor<[3]>() = (01 00)