// Fields of primitive types, which the image declares itself.
.assembly Test { }

.class public System.Object { }
.class public System.ValueType { }
.class public sealed System.Int32 extends System.ValueType {
  .field public int32 a
  .field public static int32 s
}
.class public System.String {
  .field public int32 a
  .field public static int32 s
}
.class public T {
  .method public static void 'a static field of a text'(string) cil managed { ldarg.0 ldfld int32 string::s pop ret }
  .method public static void 'and by the name of its class'(string) cil managed {
    ldarg.0  ldfld int32 System.String::s  pop  ret }
  .method public static void 'a static field of a number'(int32&) cil managed { ldarg.0 ldfld int32 int32::s pop ret }
  .method public static void 'and by the name of its type'(int32&) cil managed {
    ldarg.0  ldfld int32 System.Int32::s  pop  ret }
  .method public static void 'a field of numbers as a static one'() cil managed { ldsfld int32 int32::a pop ret }
  .method public static void 'a field of a text'(string) cil managed { ldarg.0 ldfld int32 string::a pop ret }
  .method public static void 'a static field of numbers'() cil managed { ldsfld int32 int32::s pop ret }
}
