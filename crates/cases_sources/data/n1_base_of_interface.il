.assembly extern mscorlib { }
.assembly A { }
.class interface I extends X { }