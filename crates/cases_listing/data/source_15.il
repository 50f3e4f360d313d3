.assembly extern mscorlib { }
.assembly A { }
.class C { .method specialname instance int32 get_P() cil managed { ldc.i4.0 ret } .method instance void 'add'(object) cil managed { ret } .property specialname instance int32 P() = int32(3) { .get instance int32 C::get_P() } .event specialname [mscorlib]H E { .addon instance void C::'add'(object) .fire instance void C::'add'(object) } }