// Thirty classes, each of which extends the next.
.assembly extern mscorlib { }
.assembly Rising { }

29* .class public K$ extends K% { }
.class public K29 { }
.class public T {
  // What is known of the value rises one class at a time. There are 213 edges, at most two values, and 32 types with
  // <Module>, so that at most 213 * 2 * (2 + 2 * (32 + 6)) joins and parents are asked for.
  .method public static void 'a loop that begins with the first class, and that each class goes round'() cil managed {
    .maxstack 2
    ldnull castclass K0
    L0:
30* N$: ldc.i4.0 brfalse N% pop ldnull castclass K$ br L0
    N30: pop ret
  }
}
