// Two classes, each of which extends the other.
.assembly extern mscorlib { }
.assembly Ring { }

.class public A extends B { }
.class public B extends A { }
