.assembly extern mscorlib { }
.assembly A { }
.method static void M() cil managed { .try { leave X } catch [mscorlib]System.Exception { pop leave X } X: nop .try { nop } finally { endfinally } ret }