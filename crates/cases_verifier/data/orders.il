// Which type may stand for another, and what two types merge to.
.assembly extern mscorlib { }
.assembly Test { }

.class interface public abstract I { }
.class public A implements I { }
.class public B extends A { }
.class public G<P> { }
.class public H extends class G<string> { }
.class public T {
  .method public static class I 'B as its interface'(class B) cil managed { ldarg.0 ret }
  .method public static class A 'B as its base'(class B) cil managed { ldarg.0 ret }
  .method public static class B 'A as what extends it'(class A) cil managed { ldarg.0 ret }
  .method public static class A 'I as what implements it'(class I) cil managed { ldarg.0 ret }
  .method public static object 'I as an object'(class I) cil managed { ldarg.0 ret }
  .method public static int8[] 'uint8[] as int8[]'(uint8[]) cil managed { ldarg.0 ret }
  .method public static bool[] 'uint8[] as bool[]'(uint8[]) cil managed { ldarg.0 ret }
  .method public static int64[] 'int32[] as int64[]'(int32[]) cil managed { ldarg.0 ret }
  .method public static native int 'int32 as native int'(int32) cil managed { ldarg.0 ret }
  .method public static int32 'bool as int32'(bool) cil managed { ldarg.0 ret }
  .method public static class G<string> 'H as the instance that it extends'(class H) cil managed { ldarg.0 ret }
  .method public static class G<object> 'and as another'(class H) cil managed { ldarg.0 ret }

  .method public static class A 'B and A merge to A'(bool, class B, class A) cil managed {
    ldarg.0 brtrue.s L ldarg.1 br.s J L: ldarg.2 J: ret }
  .method public static class B 'and not to B'(bool, class B, class A) cil managed {
    ldarg.0 brtrue.s L ldarg.1 br.s J L: ldarg.2 J: ret }
  .method public static object 'A and I merge to an object'(bool, class A, class I) cil managed {
    ldarg.0 brtrue.s L ldarg.1 br.s J L: ldarg.2 J: ret }
  .method public static class A 'and not to A'(bool, class A, class I) cil managed {
    ldarg.0 brtrue.s L ldarg.1 br.s J L: ldarg.2 J: ret }
  .method public static class I 'and not to I'(bool, class A, class I) cil managed {
    ldarg.0 brtrue.s L ldarg.1 br.s J L: ldarg.2 J: ret }
  .method public static object 'A and int32[] merge to an object'(bool, class A, int32[]) cil managed {
    ldarg.0 brtrue.s L ldarg.1 br.s J L: ldarg.2 J: ret }
  .method public static class A 'and no more to A'(bool, class A, int32[]) cil managed {
    ldarg.0 brtrue.s L ldarg.1 br.s J L: ldarg.2 J: ret }
  .method public static class [mscorlib]System.Array 'nor to an array'(bool, class A, int32[]) cil managed {
    ldarg.0 brtrue.s L ldarg.1 br.s J L: ldarg.2 J: ret }
  .method public static class A 'A and null merge to A'(bool, class A) cil managed {
    ldarg.0 brtrue.s L ldarg.1 br.s J L: ldnull J: ret }
  .method public static class B 'and neither to null nor to B'(bool, class A) cil managed {
    ldarg.0 brtrue.s L ldarg.1 br.s J L: ldnull J: ret }
  .method public static void 'int32 and int64 merge to nothing'(bool) cil managed {
    ldarg.0 brtrue.s L ldc.i4.0 br.s J L: ldc.i8 0 J: pop ret }
}
