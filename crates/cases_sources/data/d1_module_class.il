.assembly extern mscorlib { }
.assembly A { }
.class '<Module>' { }