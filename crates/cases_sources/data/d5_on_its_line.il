.assembly extern mscorlib { .hash = (FF) .locale "q" }
.assembly retargetable A { .custom void [mscorlib]X::.ctor() = (01) }
.class abstract sealed beforefieldinit flags(65535)  C0 {
.class nested public  C5<- .ctor T> extends [mscorlib]N.G`1 {
.method strict static int32[][] m39<.ctor - M, + - flags(0x100) K>() cil managed preservesig internalcall { conv.ovf.u8
  ldfld object C1::'add'
  .param type [2] L0: L1: L2: L3: ret }
.param type T
.method instance valuetype C3 m52(int32 v0) cil managed { ldind.u2
ldelem.any C2
.locals (void a, int32& a)
L8:
.entrypoint
L9:
.locals init (native int[,-2...] v2)
.entrypoint  ret }
}
.method instance class C1<int32> .ctor(class C1<class C0[2...1], int32> a, string a, [out] [out] int32[][] v2) cil managed noinlining { L16:
  cpblk
  localloc  ret W: br W2 W2: }
.method instance int32 s0(int32) cil managed { }
.method private static native unsigned int m49() runtime managed { blt.un L24
  .override C0::m0
  conv.ovf.i1 L24: L25: ret }
.class unicode interface C6 extends [mscorlib]N.G`1 {
.data D0 = { bytearray (FF), int64 }
}
.method hidebysig static object& m0<.ctor (C3) M>(float64 a) cil managed noinlining { .override method instance string m1<[1]>() L32: L33: }
}
.class sequential beforefieldinit flags(0x100)  C1<- T, valuetype T> extends C2 {

}
.class serializable import interface C2<(C2) T> extends C2 {
.method instance int32 s0(int32) cil managed { }
.method abstract newslot static vararg class C2[] .ctor(int32& ) cil managed noinlining {  }
.method strict public static native uint .cctor(int32[][536870912] ) cil managed { L48:
L49:
L50:
.custom default typedref C0::m0() =(0A)
L51:
{ ldloca 300
ldarg.s 1 }
bgt.un L50
ldloc.2
.param [0]
ldloc 65535
.override !!3::m0
ldloc.2
ckfinite
stelem.i
mul.ovf
ldloc zz
.override C1::m0
ldloc.0
.maxstack 0
cgt.un  ret }
}
.class public beforefieldinit import flags(0x100)  C3<class T, + (typedref) U> {
.param type T
}