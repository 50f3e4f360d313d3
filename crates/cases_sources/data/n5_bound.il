.assembly extern mscorlib { }
.assembly A { }
.class C<(class C<!X>) T> {  }