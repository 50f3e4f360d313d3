.assembly extern mscorlib {  }
.assembly retargetable A { .hash algorithm 0x8004 .publickey = () }
.module M.dll
.module M.dll
.corflags 3
.method reqsecobj instance char m4([out] typedref v0, valuetype '<Module>'<native int, valuetype '<Module>'<native unsigned int>> b, [opt] int32 v2) cil managed { brtrue.s Z nop nop nop nop nop nop nop nop nop nop nop nop nop nop nop nop nop nop nop nop nop nop nop nop nop nop nop nop nop nop nop nop nop nop nop nop nop nop nop nop nop nop nop nop nop nop nop nop nop nop nop nop nop nop nop nop nop nop nop nop nop nop nop nop nop nop nop nop nop nop nop nop nop nop nop nop nop nop nop nop nop nop nop nop nop nop nop nop nop nop nop nop nop nop nop nop nop nop nop nop nop nop nop nop nop nop nop nop nop nop nop nop nop nop nop nop nop nop nop nop nop nop nop nop nop nop  Z : ret W: br W2 W2: }