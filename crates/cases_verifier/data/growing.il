// Forty generic classes, each of which extends the one before with P of its parameter twice: the arguments of the first
// have 2^40 leaves.
.assembly extern mscorlib { }
.assembly Growing { }

.class public P<A, B> { }
.class public Z { }
.class public G0<A> { }
40* .class public G%<A> extends class G$<class P<!0, !0>> { }
.class public T {
  .method public static class Z 'the last of forty classes as another class'(class G40<string>) cil managed { ldarg.0 ret }
}
