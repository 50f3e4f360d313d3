.assembly extern retargetable mscorlib as K0 { .hash = (FF) .locale "q" }
.assembly extern flags(0x100) System.Runtime { .hash = (FF) .locale "q" }
.assembly extern retargetable Lib { .hash = (FF) .locale "q" }
.assembly retargetable A { .ver 1:0:0:0 }
.corflags 3
.corflags 11
.class unicode  C0<T> implements int32[], C0 {

}
.class abstract sealed import flags(0x8000)  C1<- class flags(65535) (bool) T> extends class [A]C1<void, native unsigned int> {
.method strict virtual instance int32 .cctor<class + M, - M>() runtime managed { brtrue.s Z nop nop nop nop nop nop nop nop nop nop nop nop nop nop nop nop nop nop nop nop nop nop nop nop nop nop nop nop nop nop nop nop nop nop nop nop nop nop nop nop nop nop nop nop nop nop nop nop nop nop nop nop nop nop nop nop nop nop nop nop nop nop nop nop nop nop nop nop nop nop nop nop nop nop nop nop nop nop nop nop nop nop nop nop nop nop nop nop nop nop nop nop nop nop nop nop nop nop nop nop nop nop nop nop nop nop nop nop nop nop nop nop nop nop nop nop nop nop nop nop nop nop nop nop nop nop nop nop  Z : ret }
.field privatescope privatescope class C0<int32[]> x.y
.method newslot static vararg int32[][] m0<- .ctor M>(!T , int32 , char[0...] v2)  { L8:
L9:
.param type M
brnull.s L9
bgt.un L8
ldobj [Lib]X
endfilter
ldloc.1  ret }
}