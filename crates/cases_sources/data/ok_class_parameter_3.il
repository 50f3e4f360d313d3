.assembly extern mscorlib { }
.assembly A { }
.field !3[] F