.assembly extern mscorlib { }
.assembly A { }
.method static void M() cil managed { A: ret } .method void N() { A: ret }