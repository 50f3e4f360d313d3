.assembly extern y { }
.assembly A { }
.class A { .class nested public B extends [y]Z { } }