// interfaces are a set in order; a name and a signature of it aren't the same
.assembly extern mscorlib { } .assembly A { } .class interface I { } .class interface J { } .class C implements J, class J, [mscorlib]X, I, class J, I { }
