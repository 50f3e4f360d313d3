.assembly extern flags(0x100) mscorlib { .hash = (FF) .locale "q" }
.assembly extern Lib { .ver 1:2:3:4 }
.assembly retargetable A { .ver 1:0:0:0 }
.class sequential beforefieldinit  C0<valuetype ([mscorlib]X/Y) T, .ctor + U> extends !U {
.class nested private unicode interface C2 extends valuetype C0 modreq(C0) implements int32[], C0, bool {
.method reqsecobj !0 m56(object[] b, bool v1) cil managed preservesig internalcall flags(0x400) { .try { rethrow
  L0: nop }
filter { br.s L0 nop } { L1:
beq L0 nop }
blt.un Q32
arglist
ldfld string[2...1] x.y
stfld char [mscorlib]X::'add'
.maxstack 0
div.un
ldelem.i  ret }
.method final private static vararg valuetype [A]C0 m56<- class M, - K>(char ) runtime managed { .custom instance valuetype C0[1...3,4,,...] valuetype [Lib]System.ValueType pinned::x.y() = () ldloc 300 ldelem.i2 .param type M ldind.i4 .override !!K::m0 ldarg.s 0x10 ldarg.s 255 L8: ret }
.field native unsigned int f15
.size 0
.pack 128
.method flags(0x8000) virtual instance valuetype [A]C0 m1(native unsigned int a) cil managed {  }
}
}
.data cil D0 = float64(1)
.field privatescope flags(7) string x.y