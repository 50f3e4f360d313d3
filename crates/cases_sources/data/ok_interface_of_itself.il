.assembly extern mscorlib { } .assembly Test { }
.class interface I implements I { }