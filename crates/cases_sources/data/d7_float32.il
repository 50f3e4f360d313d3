.assembly extern retargetable mscorlib {  }
.assembly extern netstandard { .publickey = (0A) .culture "de" + "x" }
.assembly extern retargetable Lib2 { .publickeytoken = (01 02) }
.assembly flags(1) my.asm { .ver 1:0:0:0 }
.stackreserve 0xFFFFFFFF
.data D0 = int32(0x01020304)
.data cil D0 = float32(-1)