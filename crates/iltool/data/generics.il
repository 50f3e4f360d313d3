// Generic classes and methods, a bound, a nested generic type, instantiations and an interface of the library. It prints
// what a stack gives back, and the greater of two values.
.assembly extern mscorlib
{
  .publickeytoken = (B7 7A 5C 56 19 34 E0 89)
  .ver 4:0:0:0
}
.assembly Generics { .ver 1:0:0:0 }

.class public auto ansi beforefieldinit Stack<T> extends [mscorlib]System.Object
{
  .class nested private auto ansi sealed beforefieldinit Cell<T> extends [mscorlib]System.Object
  {
    .field public !T item
    .field public class Stack/Cell<!T> below

    .method public hidebysig specialname rtspecialname instance void .ctor() cil managed
    {
      ldarg.0
      call instance void [mscorlib]System.Object::.ctor()
      ret
    }
  }

  .field private class Stack/Cell<!T> top
  .field private int32 count

  .method public hidebysig specialname rtspecialname instance void .ctor() cil managed
  {
    ldarg.0
    call instance void [mscorlib]System.Object::.ctor()
    ret
  }

  .method public hidebysig instance void Push(!T item) cil managed
  {
    .maxstack 3
    .locals init (class Stack/Cell<!T> cell)
    newobj instance void class Stack/Cell<!T>::.ctor()
    stloc cell
    ldloc cell
    ldarg item
    stfld !0 class Stack/Cell<!T>::item
    ldloc cell
    ldarg.0
    ldfld class Stack/Cell<!0> class Stack<!T>::top
    stfld class Stack/Cell<!0> class Stack/Cell<!T>::below
    ldarg.0
    ldloc cell
    stfld class Stack/Cell<!0> class Stack<!T>::top
    ldarg.0
    dup
    ldfld int32 class Stack<!T>::count
    ldc.i4.1
    add
    stfld int32 class Stack<!T>::count
    ret
  }

  .method public hidebysig instance !T Pop() cil managed
  {
    .maxstack 3
    .locals init (!T item)
    ldarg.0
    ldfld class Stack/Cell<!0> class Stack<!T>::top
    ldfld !0 class Stack/Cell<!T>::item
    stloc item
    ldarg.0
    ldarg.0
    ldfld class Stack/Cell<!0> class Stack<!T>::top
    ldfld class Stack/Cell<!0> class Stack/Cell<!T>::below
    stfld class Stack/Cell<!0> class Stack<!T>::top
    ldarg.0
    dup
    ldfld int32 class Stack<!T>::count
    ldc.i4.1
    sub
    stfld int32 class Stack<!T>::count
    ldloc item
    ret
  }

  .method public hidebysig specialname instance int32 get_Count() cil managed
  {
    ldarg.0
    ldfld int32 class Stack<!T>::count
    ret
  }
  .property instance int32 Count() { .get instance int32 Stack::get_Count() }
}

.class public abstract sealed auto ansi beforefieldinit Pick extends [mscorlib]System.Object
{
  .method public hidebysig static !!T Greater<(class [mscorlib]System.IComparable) T>(!!T a, !!T b) cil managed
  {
    .maxstack 2
    ldarga a
    ldarg b
    box !!T
    constrained. !!T
    callvirt instance int32 [mscorlib]System.IComparable::CompareTo(object)
    ldc.i4.0
    bge.s first
    ldarg b
    ret
  first:
    ldarg a
    ret
  }
}

.class public auto ansi beforefieldinit Program extends [mscorlib]System.Object
{
  .method public hidebysig static void Main() cil managed
  {
    .entrypoint
    .maxstack 3
    .locals init (class Stack<string> words, class [mscorlib]System.Collections.Generic.'List`1'<int32> numbers)
    newobj instance void class Stack<string>::.ctor()
    stloc words
    ldloc words
    ldstr "first"
    callvirt instance void class Stack<string>::Push(!0)
    ldloc words
    ldstr "second"
    callvirt instance void class Stack<string>::Push(!0)
    ldloc words
    callvirt instance !0 class Stack<string>::Pop()
    call void [mscorlib]System.Console::WriteLine(string)
    ldloc words
    callvirt instance int32 class Stack<string>::get_Count()
    call void [mscorlib]System.Console::WriteLine(int32)
    ldc.i4.s 30
    ldc.i4.s 12
    call !!0 Pick::Greater<int32>(!!0, !!0)
    call void [mscorlib]System.Console::WriteLine(int32)
    ldstr "pear"
    ldstr "apple"
    call !!0 Pick::Greater<string>(!!0, !!0)
    call void [mscorlib]System.Console::WriteLine(string)
    newobj instance void class [mscorlib]System.Collections.Generic.'List`1'<int32>::.ctor()
    stloc numbers
    ldloc numbers
    ldc.i4.7
    callvirt instance void class [mscorlib]System.Collections.Generic.'List`1'<int32>::Add(!0)
    ldloc numbers
    ldc.i4.0
    callvirt instance !0 class [mscorlib]System.Collections.Generic.'List`1'<int32>::get_Item(int32)
    call void [mscorlib]System.Console::WriteLine(int32)
    ret
  }
}
