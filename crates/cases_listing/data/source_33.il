.assembly extern flags(0x100) mscorlib { .hash = (FF) .locale "q" }
.assembly flags(1) T { .custom void [mscorlib]X::.ctor() = (01) }
.module M.dll
.imagebase 0xF0000000
.class sequential  C0<valuetype T, + T> extends [T]C1 {
.method instance int32 s0(int32) cil managed { }
}
.class public unicode flags(7) interface C1 extends uint64 {
.class import beforefieldinit  C3<T, - (class [T]C0<string, class [T]C1>) T> {
.event specialname specialname [T]C1 e3 {  }
.method public newslot static !T m1(bool v0, native unsigned int a, object[0...] v2) cil managed preservesig internalcall {  }
.field [0] notserialized float64 x.y
}
.method instance int32 s0(int32) cil managed { }
.pack 1
.method abstract static vararg valuetype C1 m17<- valuetype M, class K>(void a, !!K b) runtime managed { .custom float64[...][2...1] float64*::.ctor() =(0A)
  neg
  brzero.s L8 L8: ret }
.field bool f2
.event specialname native unsigned int e5 {  }
}