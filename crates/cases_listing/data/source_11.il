.assembly extern mscorlib { }
.assembly A { }
.method static void M() cil managed { A: switch (A, B) switch () B: br.s A }