.assembly extern flags(0x100) mscorlib as K0 { .hash = (FF) .locale "q" }
.assembly extern Lib as K1 { .publickeytoken = (01 02) }
.assembly extern retargetable Lib as K2 {  }
.assembly A { .custom void [K0]X::.ctor() = (01) }
.file alignment 4096
.class sequential unicode flags(0x8000)  C0<T> extends C0 {
.pack 1
.method public instance uint64 .cctor<- class (C0) M, + K>(class C0<int32> a) cil managed noinlining flags(0x400) { .try { newobj instance void[] m1(!T, string[5] modreq(valuetype C0)) nop }
catch C0 handler L1 to L0
filter { .override method default uint64 m0<[1]>()
  .maxstack 0 nop } { L0: nop }
stsfld int32 x.y
conv.ovf.u4 L1: L2: L3: ret }
.method static vararg !!M[1...3,4,,...] m0<.ctor M, .ctor M>() runtime managed {  }
}