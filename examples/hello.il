// A program that prints one line.
.assembly extern mscorlib
{
  .publickeytoken = (B7 7A 5C 56 19 34 E0 89)
  .ver 4:0:0:0
}
.assembly Hello
{
  .ver 1:0:0:0
}
.class public auto ansi beforefieldinit Program extends [mscorlib]System.Object
{
  .method public hidebysig static void Main() cil managed
  {
    .entrypoint
    .maxstack 8
    ldstr "Hello"
    call void [mscorlib]System.Console::WriteLine(string)
    ret
  }
}
