// How many values the stack has: where they are too few or too many, where stacks meet, and where it is to be empty.
.assembly extern mscorlib { }
.assembly Test { }

.class public U {
  .method public static void Take4(int32) cil managed { ret }
}
.class public T {
  .method public static void 'nothing to pop'() cil managed { pop ret }
  .method public static int32 'nothing to return'() cil managed { ret }
  .method public static void 'an addition of one operand'() cil managed { ldc.i4.1 add pop ret }
  .method public static void 'an addition of two'() cil managed { ldc.i4.1 ldc.i4.2 add pop ret }
  .method public static void 'a call without its argument'() cil managed { call void U::Take4(int32) ret }
  .method public static void 'a call without the argument behind the sentinel'() cil managed {
    call vararg void [mscorlib]Far.X::F(..., int32)  ret }
  .method public static void 'one way pushes, the other does not'(bool) cil managed {
    ldarg.0  brtrue.s L  ldnull  L: ret }
  .method public static void 'and nothing behind their meeting is known'(bool) cil managed {
    ldarg.0  brtrue.s L  ldnull  L: nop  ret }
  .method public static void 'both ways push'(bool) cil managed {
    ldarg.0  brtrue.s L  ldnull  br.s J  L: ldnull  J: pop  ret }
  .method public static void 'a loop that pushes each time'(bool) cil managed { L: ldnull ldarg.0 brtrue.s L ret }
  .method public static void 'a loop that pops what it pushes'(bool) cil managed {
    L: ldnull  pop  ldarg.0  brtrue.s L  ret }
  .method public static void 'a case of a switch and what falls past it differ'() cil managed {
    ldc.i4.0  switch (L)  ldnull  L: ret }
  .method public static void 'two values where one may be'() cil managed { .maxstack 1 ldnull ldnull pop pop ret }
  .method public static void 'two values where two may be'() cil managed { .maxstack 2 ldnull ldnull pop pop ret }
  .method public static void 'no value where none may be'() cil managed { .maxstack 0 ret }
  .method public static void 'falling into a try with a value'() cil managed {
    .try a to b finally handler b to c
    ldc.i4.0  a: pop  ldc.i4.0  leave.s c  b: endfinally  c: ret }
  .method public static void 'branching into a try with a value'() cil managed {
    .try a to b finally handler b to c
    ldc.i4.0  br.s a  a: pop  leave.s c  b: endfinally  c: ret }
  .method public static void 'falling into a try without one'() cil managed {
    .try a to b finally handler b to c
    ldc.i4.0  pop  a: leave.s c  b: endfinally  c: ret }
  .method public static void 'leaving into a try empties the stack'() cil managed {
    .try a to b finally handler b to c
    ldnull  leave.s a  a: leave.s c  b: endfinally  c: ret }
  .method public static void 'a value too many at ret'() cil managed { ldnull ret }
  .method public static int32 'two values at the ret of one'() cil managed { ldc.i4.0 ldc.i4.0 ret }
  .method public static int32 'one value at the ret of one'() cil managed { ldc.i4.0 ret }
}
