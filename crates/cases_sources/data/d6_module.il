.assembly extern retargetable mscorlib as K0 { .publickeytoken = (01 02) }
.assembly retargetable A { .custom void [K0]X::.ctor() = (01) }
.module M.dll
.module M.dll
.imagebase 0x10000
.class beforefieldinit unicode interface C0<- + T, + flags(0x8000) U> extends valuetype [K0]System.ValueType {

}
.custom instance string[5,2...]* 'add'() =(0A)
.method flags(0x8000) static vararg class C0 m24() cil managed { L0:
.maxstack 0
stind.r4
.maxstack 65535
stfld unsigned int8* f1
.param [0]
L1:
brnull.s L2 L2: L3: ret }