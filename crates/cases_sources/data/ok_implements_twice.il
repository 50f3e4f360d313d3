.assembly extern mscorlib { }
.assembly A { }
.class C implements C, C {  }