.assembly extern retargetable flags(0x800) mscorlib { .publickey = (01) .culture "de\"\001" .hash = (FF) }
.assembly flags(0x4000) 'my.x'.'in' { .publickeytoken = () .locale "x" .custom instance void [mscorlib]X::.ctor() = (01 00) }
.module 'M..x'
.custom instance void [mscorlib]X::.ctor()