.assembly extern flags(0x100) mscorlib { .hash = (FF) .locale "q" }
.assembly retargetable T { .custom void [mscorlib]X::.ctor() = (01) }
.file alignment 0x200
.file alignment 0x200
.class serializable  a.'b'.C0<valuetype - T, .ctor class (!U) U> extends C1 {
.method strict specialname static valuetype C1& .cctor<- + M>(class C0 a)  flags(0x100) {  }
.field flags(1) class C1<int32[]> f18
.field [4294967295] static literal native uint f2
.method instance int32 s0(int32) cil managed { }
.size 0
.method final virtual instance class [mscorlib]N.G`1<int32>& m35(valuetype C1 b) cil managed {  }
}
.class public import  C1 extends valuetype C0[,] implements int32, C0 {
.field static !1 f2
.method hidebysig static class C1<!0> m14<valuetype M, M>(int32 b) cil managed { ldelem class C1
  L18:
  mul.ovf.un
  .param [1] flags(1) = int32(0)
  ldind.i2
  .param type M
  .entrypoint
  L17:
  ldarg.1
  rethrow
  .custom instance !65535 C1::'add'()
  {  }
  ldc.i4.1
  stind.i
  ldloc 300
  L18:
  conv.ovf.i4.un
  stsfld class C1& 'add'
  { L19: }
  ldc.i4.5  ret }
.class nested public serializable  C3<- T, + - U> {
.method instance int32 s0(int32) cil managed { }
.field privatescope flags(65535) !U f2
.method instance int32 s1(int32) cil managed { }
.data cil D0 = { bytearray (FF), int64 }
.custom int32* [mscorlib]N.G`1::m1<[3]>(..., typedref) =(0A)
.field specialname valuetype C0<int32[], !T> x.y
}
.method reqsecobj unsigned int8 m1<.ctor (C0) M, valuetype ([mscorlib]System.Object) M>([out] class C0 v0, int32& )  {  }
.method instance int32 s0(int32) cil managed { }
.method float64 m49<M>([in] [in] !65535 v0)  { L32: L33: L34: L35: ret }
}
.custom instance explicit !65536 C0::'add'() = ()
.method flags(0x8000) static valuetype C0 m48(!0 a) cil managed { conv.ovf.u4.un beq L40 L40:  ret }