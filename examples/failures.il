// Protected blocks: catch, filter, finally and fault, nested and one after another, and a switch. It prints which handlers
// ran.
.assembly extern mscorlib
{
  .publickeytoken = (B7 7A 5C 56 19 34 E0 89)
  .ver 4:0:0:0
}
.assembly Failures { .ver 1:0:0:0 }

.class public auto ansi beforefieldinit Program extends [mscorlib]System.Object
{
  .method private hidebysig static void Say(string text) cil managed
  {
    ldarg text
    call void [mscorlib]System.Console::WriteLine(string)
    ret
  }

  // 0: nothing happens; 1: an argument is wrong; 2: a number is divided by zero; else another failure
  .method private hidebysig static void Fail(int32 how) cil managed
  {
    .maxstack 2
    ldarg how
    switch (nothing, argument, zero)
    ldstr "other"
    newobj instance void [mscorlib]System.InvalidOperationException::.ctor(string)
    throw
  argument:
    newobj instance void [mscorlib]System.ArgumentException::.ctor()
    throw
  zero:
    ldc.i4.1
    ldc.i4.0
    div
    pop
  nothing:
    ret
  }

  .method private hidebysig static void Try(int32 how) cil managed
  {
    .maxstack 2
    .try
    {
      .try
      {
        ldarg how
        call void Program::Fail(int32)
        leave.s inner
      }
      fault
      {
        ldstr "fault"
        call void Program::Say(string)
        endfinally
      }
    inner:
      ldstr "no failure"
      call void Program::Say(string)
      leave.s done
    }
    catch [mscorlib]System.ArgumentException
    {
      pop
      ldstr "argument"
      call void Program::Say(string)
      leave.s done
    }
    filter
    {
      isinst [mscorlib]System.DivideByZeroException
      ldnull
      cgt.un
      endfilter
    }
    {
      pop
      ldstr "zero"
      call void Program::Say(string)
      leave.s done
    }
  done:
    ret
  }

  .method private hidebysig static void TryAll(int32 how) cil managed
  {
    .maxstack 2
    .try
    {
      .try
      {
        ldarg how
        call void Program::Try(int32)
        leave.s after
      }
      finally
      {
        ldstr "finally"
        call void Program::Say(string)
        endfinally
      }
    after:
      leave.s done
    }
    catch [mscorlib]System.Exception
    {
      callvirt instance string [mscorlib]System.Exception::get_Message()
      call void Program::Say(string)
      leave.s done
    }
  done:
    ret
  }

  .method public hidebysig static int32 Main() cil managed
  {
    .entrypoint
    .maxstack 2
    .locals init (int32 k)
  next:
    ldloc k
    call void Program::TryAll(int32)
    ldloc k
    ldc.i4.1
    add
    dup
    stloc k
    ldc.i4.4
    blt next
    ldc.i4.0
    ret
  }
}
