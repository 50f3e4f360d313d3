// One of these two methods breaks a rule.
.assembly extern mscorlib { }
.assembly Checked { }
.class public interface abstract Shape { }
.class public Base extends [mscorlib]System.Object implements Shape { .field public int32 count }
.class public Box<T> extends Base
{
  .method public instance class Shape Itself(bool) cil managed
  {
    .maxstack 2
    A: ldarg.0 ldc.i4.1 stfld int32 Base::count leave E
    H: ldarg.0 ldc.i4.2 stfld int32 Base::count endfinally
    E: ldarg.1 brfalse F ldarg.0 br G
    F: ldnull
    G: ret
    .try A to H finally handler H to E
  }
  .method public static int32 Nothing() cil managed
  {
    .maxstack 1
    ret
  }
}
