.assembly extern mscorlib { .ver 1:2:3:4 }
.assembly flags(1) T { .ver 1:0:0:0 }
.subsystem 2
.class abstract sealed unicode import  C0<T, valuetype - (C0) U> extends C2 {

}
.class abstract sealed  C1 extends !!3 implements C3 {
.custom valuetype C3 class C2::m1(typedref, native uint modreq([mscorlib]N.G`1) pinned) =(0A)
.method instance int32 s0(int32) cil managed { }
.event specialname class C1<valuetype [mscorlib]System.Object> e0 { .fire instance int32 C1::s0(int32) }
.method hidebysig newslot flags(7) static string m35(class [mscorlib]X/Y modopt(C2) modreq(native int) , class C0 , char ) cil managed preservesig internalcall { L0:  ret }
.field static literal int32[] f2
.size 4294967295
}
.class public  C2<valuetype flags(7) (C0) T, .ctor valuetype U> extends float64 implements char, C0, native int* {

}
.class public import serializable  C3 extends C0 {

}