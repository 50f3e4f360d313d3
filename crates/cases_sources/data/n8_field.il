.assembly extern mscorlib { }
.assembly A { }
.field static string F at Q