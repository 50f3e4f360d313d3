// Methods outside of types, of types and of those that these nest: 4 types, 6 bodies of 13 instructions, and 3 failures.
.assembly extern mscorlib { }
.assembly Test { }

.method public static void First() cil managed { pop ret }
.method public static void Second() cil managed { ret }
.class public abstract A {
  .method public static int32 One() cil managed { ldc.i4.1 ret }
  .method public virtual abstract instance void Without() cil managed { }
  .class nested public B {
    .method public static int32 Two() cil managed { ldc.i4.1 ldc.i4.1 ret }
    .class nested public C {
      .method public static int32 Three() cil managed { ldnull ret }
    }
  }
}
.class public D {
  .method public static void Four() cil managed { nop nop ret }
}
