.assembly extern mscorlib { .publickey = (0A) .culture "de" + "x" }
.assembly extern System.Runtime {  }
.assembly extern retargetable System.Runtime { .publickey = (0A) .culture "de" + "x" }
.assembly retargetable T { .ver 1:0:0:0 }
.assembly retargetable T { .ver 1:0:0:0 }
.custom default int32 modopt('<Module>') m1(...)