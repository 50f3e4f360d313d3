.assembly extern mscorlib { }
.assembly A { }
.method static vararg void M() cil managed { call vararg void M(..., int32) call !!0 [mscorlib]X::F<int32, class [mscorlib]Y>(!!0, !!1) call instance explicit void [mscorlib]X::G<[2]>() ldtoken method void M() ldtoken field int32 [mscorlib]X::f ldtoken int32[] ret }