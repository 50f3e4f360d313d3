// Classes with virtual methods, an interface, a property, static fields with an initializer, arrays and a loop. It prints
// the names and areas of three shapes and their sum.
.assembly extern mscorlib
{
  .publickeytoken = (B7 7A 5C 56 19 34 E0 89)
  .ver 4:0:0:0
}
.assembly Shapes { .ver 1:0:0:0 }

.class interface public abstract auto ansi HasArea
{
  .method public hidebysig newslot abstract virtual instance int32 Area() cil managed { }
}

.class public abstract auto ansi beforefieldinit Shape extends [mscorlib]System.Object implements HasArea
{
  .field private initonly string name
  .field public static int32 made

  .method family hidebysig specialname rtspecialname instance void .ctor(string name) cil managed
  {
    .maxstack 8
    ldarg.0
    call instance void [mscorlib]System.Object::.ctor()
    ldarg.0
    ldarg name
    stfld string Shape::name
    ldsfld int32 Shape::made
    ldc.i4.1
    add
    stsfld int32 Shape::made
    ret
  }
  .method public hidebysig specialname instance string get_Name() cil managed
  {
    ldarg.0
    ldfld string Shape::name
    ret
  }
  .property instance string Name()
  {
    .get instance string Shape::get_Name()
  }
  .method public hidebysig newslot abstract virtual instance int32 Area() cil managed { }
}

.class public auto ansi sealed beforefieldinit Square extends Shape
{
  .field private initonly int32 side

  .method public hidebysig specialname rtspecialname instance void .ctor(int32 side) cil managed
  {
    ldarg.0
    ldstr "square"
    call instance void Shape::.ctor(string)
    ldarg.0
    ldarg.1
    stfld int32 Square::side
    ret
  }
  .method public hidebysig virtual instance int32 Area() cil managed
  {
    ldarg.0
    ldfld int32 Square::side
    dup
    mul
    ret
  }
}

.class public auto ansi sealed beforefieldinit Rectangle extends Shape
{
  .field private initonly int32 width
  .field private initonly int32 height

  .method public hidebysig specialname rtspecialname instance void .ctor(int32 width, int32 height) cil managed
  {
    ldarg.0
    ldstr "rectangle"
    call instance void Shape::.ctor(string)
    ldarg.0
    ldarg width
    stfld int32 Rectangle::width
    ldarg.0
    ldarg height
    stfld int32 Rectangle::height
    ret
  }
  .method public hidebysig virtual instance int32 Area() cil managed
  {
    ldarg.0
    ldfld int32 Rectangle::width
    ldarg.0
    ldfld int32 Rectangle::height
    mul
    ret
  }
}

.class public auto ansi beforefieldinit Program extends [mscorlib]System.Object
{
  .method private hidebysig static int32 Sum(class Shape[] shapes) cil managed
  {
    .maxstack 4
    .locals init (int32 sum, int32 k)
    ldc.i4.0
    stloc sum
    ldc.i4.0
    stloc k
    br.s test
  next:
    ldstr "{0}: {1}"
    ldarg shapes
    ldloc k
    ldelem.ref
    callvirt instance string Shape::get_Name()
    ldarg shapes
    ldloc k
    ldelem.ref
    callvirt instance int32 HasArea::Area()
    box [mscorlib]System.Int32
    call void [mscorlib]System.Console::WriteLine(string, object, object)
    ldloc sum
    ldarg shapes
    ldloc k
    ldelem.ref
    callvirt instance int32 Shape::Area()
    add
    stloc sum
    ldloc k
    ldc.i4.1
    add
    stloc k
  test:
    ldloc k
    ldarg shapes
    ldlen
    conv.i4
    blt.s next
    ldloc sum
    ret
  }

  .method public hidebysig static void Main() cil managed
  {
    .entrypoint
    .maxstack 5
    .locals init (class Shape[] shapes)
    ldc.i4.3
    newarr Shape
    stloc.0
    ldloc.0
    ldc.i4.0
    ldc.i4.4
    newobj instance void Square::.ctor(int32)
    stelem.ref
    ldloc.0
    ldc.i4.1
    ldc.i4.2
    ldc.i4.s 21
    newobj instance void Rectangle::.ctor(int32, int32)
    stelem.ref
    ldloc.0
    ldc.i4.2
    ldc.i4.1
    newobj instance void Square::.ctor(int32)
    stelem.ref
    ldloc.0
    call int32 Program::Sum(class Shape[])
    call void [mscorlib]System.Console::WriteLine(int32)
    ldsfld int32 Shape::made
    call void [mscorlib]System.Console::WriteLine(int32)
    ret
  }
}
