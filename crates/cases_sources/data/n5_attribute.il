.assembly extern mscorlib { .publickeytoken = (01 02) }
.assembly extern retargetable Lib1 { .hash = (FF) .locale "q" }
.assembly A { .ver 1:0:0:0 }
.imagebase 0xF0000000
.imagebase 0x10000
.class flags(65535)  C0<class ([A]C2) T, + T> extends int32 {
.class unicode  C5<- T, + U> {

}
.size 4294967295
.method specialname static vararg class [mscorlib]X/Y<!!M> m10<.ctor M, valuetype K>(!T& , [opt] [in] unsigned int8 a) cil managed preservesig internalcall {  }
.param type T
.method instance int32 s0(int32) cil managed { }
.custom instance explicit !!K 'add'() = (01 00)
}
.class interface C1<.ctor T, + flags(65535) (native int) U> extends !U {

}
.class serializable  C2 {
.size 5
.method hidebysig specialname instance int32& m38<M, .ctor .ctor K>([opt] int32 , uint64 a, [in] [in] !!M b)  { L8:
{ .locals (!65535 a) }
conv.ovf.i2.un
.try { conv.ovf.u1.un nop }
catch !!M { ldloc 65535 nop }
.custom int32 m2<[1]>(int32, native unsigned int) =(0A)
.maxstack 0
conv.ovf.i.un
pop
ble.un L8
.maxstack 0
bge L8
stobj C2
.locals (native int )
.param type M
.locals (class C1 v2, int32[1...3,4,,...] )
and
.entrypoint
ldelem.u2
or
callvirt class C1[2...1] C1::x.y()  ret }
.class import  C6 extends [A]Nope {
.method instance int32 s0(int32) cil managed { }
.event specialname C0 e2 {  }
.field static literal !!M f7
}
}
.class abstract sealed unicode interface C3 extends int32[][] {
.method specialname public static vararg int32& m5(int32 b) cil managed preservesig internalcall { L16:
  callvirt class [mscorlib]System.Object native int::m1(valuetype C1)
  leave L16  ret }
}
.field initonly !!Zz f2