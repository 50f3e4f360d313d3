.assembly extern mscorlib as K0 { .publickey = (0A) .culture "de" + "x" }
.assembly extern retargetable A { .publickey = (0A) .culture "de" + "x" }
.assembly retargetable A { .ver 1:0:0:0 }
.module M.dll
.corflags 3
.class public  C0<class - T, - T> extends bool implements C3 {
.pack 1
}
.class interface C1 extends C3 {
.method instance int32 s0(int32) cil managed { }
.field initonly public native unsigned int x.y
.class serializable interface C5 extends C3 {

}
.field privatescope private !!0 f1
.field [8] private valuetype C0 f2
.field notserialized static literal class [K0]System.ValueType f9
}
.class import  C2<class flags(0x100) T> extends class [A]C0 {

}
.class sequential import serializable flags(65535)  C3<.ctor T, valuetype U> extends C0 {
.field char f15
}