.assembly extern mscorlib { .hash = (FF) .locale "q" }
.imagebase 0x10000
.field compilercontrolled private native uint[0...] modopt([mscorlib]N.G`1) f21 = uint64(18446744073709551615)