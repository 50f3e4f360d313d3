// clauses by labels stand where they are written, and may end with the code
.assembly A { } .method static void M() cil managed { .try A to B finally handler B to D .try { A: nop } fault { nop } B: .try A to C catch int32[] handler B to D .try A to B filter B handler C to D nop C: nop D: }
