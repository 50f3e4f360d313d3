// A delegate, an event with its accessors, an enumeration, a value type with a layout, constants, data of a field and an
// attribute. It prints what a listener hears.
.assembly extern mscorlib
{
  .publickeytoken = (B7 7A 5C 56 19 34 E0 89)
  .ver 4:0:0:0
}
.assembly Events
{
  .ver 1:0:0:0
  .custom instance void [mscorlib]System.Reflection.AssemblyTitleAttribute::.ctor(string) = (01 00 06 45 76 65 6E 74 73 00 00)
}
.module Events.exe

.class public auto ansi sealed Level extends [mscorlib]System.Enum
{
  .field public specialname rtspecialname int32 value__
  .field public static literal valuetype Level Low = int32(1)
  .field public static literal valuetype Level High = int32(2)
}

.class public sequential ansi sealed beforefieldinit Pair extends [mscorlib]System.ValueType
{
  .pack 4
  .size 8
  .field public int32 first
  .field public int32 second
}

.class public auto ansi sealed Listener extends [mscorlib]System.MulticastDelegate
{
  .method public hidebysig specialname rtspecialname instance void .ctor(object target, native int pointer) runtime managed { }
  .method public hidebysig newslot virtual instance void Invoke(valuetype Level level, string text) runtime managed { }
}

.class public auto ansi beforefieldinit Source extends [mscorlib]System.Object
{
  .field private class Listener heard
  .field public static literal string Name = "source"

  .method public hidebysig specialname rtspecialname instance void .ctor() cil managed
  {
    ldarg.0
    call instance void [mscorlib]System.Object::.ctor()
    ret
  }
  .method public hidebysig specialname instance void add_Heard(class Listener listener) cil managed
  {
    .maxstack 3
    ldarg.0
    ldarg.0
    ldfld class Listener Source::heard
    ldarg listener
    call class [mscorlib]System.Delegate [mscorlib]System.Delegate::Combine(class [mscorlib]System.Delegate, class [mscorlib]System.Delegate)
    castclass Listener
    stfld class Listener Source::heard
    ret
  }
  .method public hidebysig specialname instance void remove_Heard(class Listener listener) cil managed
  {
    .maxstack 3
    ldarg.0
    ldarg.0
    ldfld class Listener Source::heard
    ldarg listener
    call class [mscorlib]System.Delegate [mscorlib]System.Delegate::Remove(class [mscorlib]System.Delegate, class [mscorlib]System.Delegate)
    castclass Listener
    stfld class Listener Source::heard
    ret
  }
  .event Listener Heard
  {
    .addon instance void Source::add_Heard(class Listener)
    .removeon instance void Source::remove_Heard(class Listener)
  }
  .method public hidebysig instance void Tell(valuetype Level level, string text) cil managed
  {
    .maxstack 3
    ldarg.0
    ldfld class Listener Source::heard
    ldarg level
    ldarg text
    callvirt instance void Listener::Invoke(valuetype Level, string)
    ret
  }
}

.class private explicit ansi sealed Bytes extends [mscorlib]System.ValueType
{
  .pack 1
  .size 16
}
.field public static valuetype Bytes Squares at squares
.data squares = { int32(1), int32(4), int32(9), int32(16) }

.class public auto ansi beforefieldinit Program extends [mscorlib]System.Object
{
  .method private hidebysig static void Hear(valuetype Level level, string text) cil managed
  {
    ldarg level
    ldc.i4.2
    bne.un.s low
    ldstr "high: "
    br.s say
  low:
    ldstr "low: "
  say:
    ldarg text
    call string [mscorlib]System.String::Concat(string, string)
    call void [mscorlib]System.Console::WriteLine(string)
    ret
  }

  .method public hidebysig static void Main() cil managed
  {
    .entrypoint
    .maxstack 4
    .locals init (class Source source, int32[] squares, valuetype Pair pair)
    newobj instance void Source::.ctor()
    stloc source
    ldloc source
    ldnull
    ldftn void Program::Hear(valuetype Level, string)
    newobj instance void Listener::.ctor(object, native int)
    callvirt instance void Source::add_Heard(class Listener)
    ldloc source
    ldc.i4.1
    ldstr "one"
    callvirt instance void Source::Tell(valuetype Level, string)
    ldloc source
    ldc.i4.2
    ldstr "tw" + "o"
    callvirt instance void Source::Tell(valuetype Level, string)
    ldc.i4.4
    newarr [mscorlib]System.Int32
    dup
    ldtoken field valuetype Bytes Squares
    call void [mscorlib]System.Runtime.CompilerServices.RuntimeHelpers::InitializeArray(class [mscorlib]System.Array, valuetype [mscorlib]System.RuntimeFieldHandle)
    stloc squares
    ldloc squares
    ldc.i4.3
    ldelem.i4
    call void [mscorlib]System.Console::WriteLine(int32)
    ldloca pair
    ldc.i4.5
    stfld int32 Pair::second
    ldloca pair
    ldfld int32 Pair::second
    sizeof Pair
    add
    call void [mscorlib]System.Console::WriteLine(int32)
    ret
  }
}
