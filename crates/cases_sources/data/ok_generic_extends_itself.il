.assembly extern mscorlib { } .assembly Test { }
.class A<T> extends class A<class A<!0>> { }