.assembly extern mscorlib as K0 { .ver 1:2:3:4 }
.assembly extern retargetable netstandard { .ver 1:2:3:4 }
.assembly extern Lib2 { .publickey = (0A) .culture "de" + "x" }
.assembly T { .ver 1:0:0:0 }
.file alignment 4096
.class import  C0<+ + T> extends int32[][] implements C1 {
.property specialname instance int32 modopt([K0]System.Object) p5() = uint64(18446744073709551615) { .get int32 C0::nope() }
.field specialname valuetype [T]C1 f0
.field static int32& f22
}
.class explicit ansi  C1 extends class C1 implements valuetype C1, C0 {
.method newslot specialname static object .cctor([out] !0 , float64 v1, !1 a) cil managed preservesig internalcall flags(0x400) {  }
}
.field initonly initonly flags(65535) valuetype C1 f22 = uint8(-128)