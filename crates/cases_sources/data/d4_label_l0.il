.assembly my.asm { .ver 1:0:0:0 }
.class explicit ansi beforefieldinit  C0 extends [netstandard]System.Object implements int32[], C0, !!0 {
.custom uint64 'add'(class C1, ..., valuetype [my.asm]C0) = (01 00)
.method static !!0 m33([opt] flags(7) int32[] v0, uint64 b, native int[] modopt(class C0 pinned) v2) cil managed preservesig internalcall flags(0x100) { L0:
L0:
cpblk
{ leave L1
conv.ovf.i1 }
ldc.i4.m1
call int32[] [my.asm]C0::'add'(native int, valuetype [my.asm]C1)
.param [2] flags(1)
beq L0  ret }
.custom instance int32[] C0::.cctor() = ()
.pack 8
.method instance int32 s0(int32) cil managed { }
.method static !1 .cctor<M, .ctor (typedref modopt(native int)) K>(int32 v0) runtime managed {  }
}
.class abstract sealed import  C1 extends C0 {

}
.assembly extern mscorlib { .hash = (FF) .locale "q" }
.assembly extern flags(0x100) netstandard { .publickey = (0A) .culture "de" + "x" }
.file alignment 0x200