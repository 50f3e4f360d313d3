.assembly extern retargetable mscorlib as K0 { .publickeytoken = (01 02) }
.assembly extern Lib1 { .publickey = (0A) .culture "de" + "x" }
.assembly retargetable my.asm {  }
.class sequential import  C0<valuetype flags(0x8000) (class [Lib1]N.G`1) T, - class U> {
.field flags(65535) int32[] f1 = "é"
.method public instance native unsigned int m50<- (native unsigned int) M, flags(1) M>(!!M , object v1) cil managed preservesig internalcall {  }
.data cil D0 = int32(0x01020304)
.field [4294967295] public notserialized flags(0x8000) class C0 f1
.field private int16 f0 at D0
.size 4294967295
}
.field notserialized !0 f0
.custom vararg int32[][] C0::'add'() = ()