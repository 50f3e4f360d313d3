.assembly extern retargetable mscorlib { .ver 1:2:3:65535 }
.assembly extern retargetable A { .hash = (FF) .locale "q" }
.file alignment 4096
.stackreserve 0
.stackreserve 0
.field static !!3[5] f0