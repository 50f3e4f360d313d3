// clauses stand in the order of their ends: what is inside goes first
.assembly extern mscorlib { } .assembly A { } .method static void M() cil managed { .try { .try { nop leave E } catch [mscorlib]X { pop leave E } filter { pop } { pop } } finally { .try { nop } fault { nop } endfinally } E: ret }
