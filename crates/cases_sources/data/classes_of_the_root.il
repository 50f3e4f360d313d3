// the root of all classes, where it is declared here; an interface has no base
.assembly A { } .class System.Object { } .class B { .class nested public System.Object { } } .class interface abstract I extends B { } .class D extends B { }
