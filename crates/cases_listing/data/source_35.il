.assembly extern mscorlib { .publickey = (0A) .culture "de" + "x" }
.assembly flags(1) T { .custom void [mscorlib]X::.ctor() = (01) }
.class unicode  C0<.ctor .ctor T, class U> implements class C0[] {
.param type [2]
.size 4294967295
.method newslot strict object m43(char , [opt] flags(65535) int32[][] a, [in] native unsigned int a) runtime managed { ble.un.s L0
add
.custom instance int32 C0::m1(native int modopt([mscorlib]System.Object)*)
.param [3]
stind.i8
br.s L0
{ conv.i2 }
.custom default char[] [mscorlib]X::x.y(...)
L0:
starg.s 255
stloc.3
rem
ldelem.u2
ldelem.ref
.maxstack 8
stind.i
ldloc.s 0x10
ldloca 0
cpobj class [mscorlib]System.Object<char>
.entrypoint  ret }
}