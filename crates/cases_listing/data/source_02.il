.assembly extern mscorlib { }
.assembly A { }
.method static void 'add'() cil managed { ldstr bytearray (00 D8) pop ldstr "Hello" pop ret }