// Large bodies. No values meet in them, so nothing is joined.
.assembly extern mscorlib { }
.assembly Large { }

.class public T {
  .method public static void 'twenty finally clauses that one instruction leaves'() cil managed {
    .maxstack 0
    A: leave H20
20* H$: endfinally
    H20: ret
20* .try A to H$ finally handler H$ to H%
  }
  .method public static void 'four thousand tries with finally clauses, each left for the next'() cil managed {
    .maxstack 0
4000* A$: leave A% H$: endfinally
    A4000: ret
4000* .try A$ to H$ finally handler H$ to A%
  }
  .method public static void 'a stack 65,535 deep'() cil managed {
    .maxstack 65535
65535* ldnull
65535* pop
    ret
  }
  .method public static void 'a switch with 60,000 targets'() cil managed {
    .maxstack 1
    ldc.i4.0
    switch (
59999* A$,
    A59999)
60000* A$: nop
    ret
  }
  .method public static void 'a loop of 100,000 instructions'(bool) cil managed {
    .maxstack 1
    A:
100000* nop
    ldarg.0 brtrue A
    ret
  }
}
