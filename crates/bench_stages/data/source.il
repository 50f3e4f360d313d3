// What this source says goes through all stages.
.assembly extern mscorlib { .ver 4:0:0:0 }
.assembly Made { .ver 1:2:3:4 .custom instance void [mscorlib]System.Object::.ctor() = (01 00 00 00) }
.module Made.dll
.data L = { int32(1), int8(2)[2], bytearray (0A 0B) }
.class public sequential ansi sealed Pair<T> extends [mscorlib]System.ValueType
{
  .pack 4 .size 8
  .field public !T first
  .field public static int32 count = int32(7)
}
.class public explicit ansi Bytes extends [mscorlib]System.ValueType
{
  .size 8
  .field [0] public int64 all
}
.class public abstract interface Shape { .method public abstract virtual instance int32 Sides() cil managed { } }
.class public Box<([mscorlib]System.Object) T> extends [mscorlib]System.Object implements Shape
{
  .field private !T held
  .field public static valuetype Bytes mapped at L
  .custom instance void [mscorlib]System.Object::.ctor()
  .class nested public Inner extends [mscorlib]System.Object { }
  .method public specialname rtspecialname instance void .ctor() cil managed
  {
    ldarg.0
    call instance void [mscorlib]System.Object::.ctor()
    ret
  }
  .method public virtual instance int32 Sides() cil managed
  {
    .maxstack 2
    .locals init (int32 n, class Box<!T> other)
    .try
    {
      ldc.i4.s 6
      stloc n
      leave.s DONE
    }
    catch [mscorlib]System.Object
    {
      pop
      leave.s DONE
    }
  DONE:
    ldloc n
    switch (A, B)
  A:
    ldstr "six" + " sides"
    pop
  B:
    ldloc.0
    ret
  }
  .method public instance !T get_Held() cil managed { ldarg.0 ldfld !0 class Box<!T>::held ret }
  .method public instance void add_Changed(class [mscorlib]System.Object 'value') cil managed
  {
    .param [1] = nullref
    .custom instance void [mscorlib]System.Object::.ctor()
    ret
  }
  .property instance !T Held() { .get instance !T Box::get_Held() }
  .event [mscorlib]System.Object Changed { .addon instance void Box::add_Changed(class [mscorlib]System.Object) }
}
.method public static !!U Same<U>(!!U x) cil managed { ldarg x ret }
