.assembly extern retargetable System.Runtime {  }
.assembly flags(1) A {  }
.module M.dll
.class serializable beforefieldinit  C0<(C0) T> extends int32[] {
.size 5
.field static private string x.y
.field initonly native uint x.y = "é"
.method private abstract static vararg bool[1...3,4,,...] m26(class C0 ) cil managed preservesig internalcall { bge.s L0 stfld valuetype [nope]X<valuetype C0, unsigned int8> f1 L0: ldfld int32& C0::f1 mul.ovf.un .param [1] {  } ldc.i4.0  ret }
.property instance class C0<int32[], class [System.Runtime]System.ValueType> p4(!T) = int32(0) {  }
.param type T
}