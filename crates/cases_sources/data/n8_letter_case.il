.assembly extern retargetable mscorlib { .ver 1:2:3:4 }
.assembly A { .ver 1:0:0:0 }
.class abstract sealed beforefieldinit import  C0<T, .ctor flags(1) U> {
.field initonly !T x.y = char(1)
}
.class explicit ansi serializable  C1 {
.method instance valuetype [A]C1 m56() cil managed {  }
.method static int32* m22(valuetype C2 a) cil managed {  }
.field public privatescope class C3<valuetype C2[,]> f1 = uint64(18446744073709551615)
.class nested public interface C5<T, T> implements native uint, !T, C1 {
.method public abstract flags(1) class C0 m18([in] [out] int32[][] a) cil managed preservesig internalcall { conv.ovf.u1 L16: L17: L18: L19: ret }
.class nested public flags(0x100000000) interface C6<.ctor T> extends class C1 {
.method static vararg !!3 m21(class C3<native int[5], class C0 pinned> v0) cil managed {  }
.param type [1]
.size 4294967295
.method private flags(0x100) static vararg native unsigned int* m28()  {  }
.field static literal flags(0x100) bool f18
.method hidebysig static native int m0<valuetype (int32) M, + M>(class C2 b) cil managed {  }
}
.param type [2]
.field int32 f1 = nullref
.field [0] specialname int8 f1 = "é" at d0
.method newslot virtual instance int32[] .cctor<valuetype flags(1) M, + (C2) K>() cil managed noinlining { .override C2::.ctor .entrypoint cgt.un L48: ret }
}
.method hidebysig static vararg !1 m40<+ M>(int32[] a, !!M v1, !1 ) cil managed { .try { L56: nop }
fault { ldind.u8 nop }
  .try { call instance explicit bool[5][] int32[][][][][][][][][][][][][][][][][][][][][][][][][][][][][][][][][][][][][][][][][][][][][][][][][][][][][][][][][][][][][][][][][][][][][][][][][][][][][][][][][][][][][][][][][][][][][][][][][][][][]::.cctor(class [mscorlib]N.G`1) nop }
fault handler L56 to L56
fault { ldloc 65535
shr.un nop }
  ldind.u4
  ldnull
  .param type M
  ldftn instance unsigned int8 m2(class C3)
  .maxstack 0
  ldfld valuetype C2 x.y  ret }
.field class C2 f27 = bool(true)
}
.class explicit ansi serializable unicode flags(0x8000)  C2 {
.event specialname specialname C0 e8 {  }
}
.class abstract sealed beforefieldinit interface C3 extends int32[][] implements object, C1 {

}
.field private public int32&* x.y
.field privatescope class C3 f1