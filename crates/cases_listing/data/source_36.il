.assembly extern flags(0x100) mscorlib {  }
.assembly extern retargetable netstandard { .hash = (FF) .locale "q" }
.assembly my.asm { .hash algorithm 0 .publickey = () }
.stackreserve 0
.class abstract sealed serializable  C0 extends valuetype [mscorlib]N.G`1<class C0, int32> {
.field valuetype C0<class C0 modopt(class [my.asm]C0)> f5
.class nested private  C2 implements C0, int32[] {
.field int32[][] x.y
.field valuetype C0 modreq(class C0) f0
.field public int32[] f0
}
.method public instance !!3 m1(valuetype C0<class C0, bool> a, int32&[2...1] a, void ) cil managed {  }
}
.method virtual instance void .ctor([out] void b)  { L8:
endfilter
stind.r8
stind.i
arglist
bgt.un.s L8
brtrue L8
conv.ovf.i8  ret }
.method !!0 modopt(!!0) m7(int32[][]& b, class C0 b, int32[][] v2) cil managed {  }