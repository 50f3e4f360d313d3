.assembly extern mscorlib { }
.assembly A { }
.class sequential ansi sealed S extends [mscorlib]System.ValueType { .pack 1 .size 3 .field static valuetype S X at Q }
.data Q = { int8(1), int16(0x203) }
