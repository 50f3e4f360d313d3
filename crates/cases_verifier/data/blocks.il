// Blocks of a body, what goes into and out of them, and how clauses nest.
.assembly extern mscorlib { }
.assembly Test { }

.class interface public abstract I { }
.class interface public abstract J { }
.class public A implements I {
  .method public specialname rtspecialname instance void .ctor() cil managed { ret }
  .method public static void Sm() cil managed { ret }
  .method public instance void Im() cil managed { ret }
}
.class public B extends A implements J { }
.class public T {
  .method public static void 'leaving two finally clauses, in a try with a catch'() cil managed {
    .try a to b finally handler b to c
    .try a to c finally handler c to d
    .try a to d catch [mscorlib]System.Exception handler d to e
    a: leave.s e  b: endfinally  c: endfinally  d: pop  leave.s e  e: ret }
  .method public static void 'leaving a catch'() cil managed {
    .try a to b catch A handler b to c
    a: leave.s c  b: leave.s c  c: ret }
  .method public static void 'a fault clause'() cil managed {
    .try a to b fault handler b to c
    a: leave.s c  b: endfinally  c: ret }
  .method public static void 'leaving for the next instruction, and a finally clause that throws'() cil managed {
    .try a to c finally handler c to d
    a: leave.s b  b: leave.s d  c: ldnull  throw  d: ret }
  .method public static void 'a try that nobody reaches'() cil managed {
    .try a to b finally handler b to c
    br.s e  a: leave.s e  b: endfinally  c: endfinally  e: ret  nop }
  .method public static void 'and its handler'() cil managed {
    .try a to b catch A handler b to d
    br.s d  a: leave.s d  b: pop  pop  pop  leave.s d  d: ret }
  .method public static void 'ret in a try'() cil managed {
    .try a to b finally handler b to c
    a: ret  b: endfinally  c: }
  .method public static void 'ret behind it'() cil managed {
    .try a to b finally handler b to c
    a: leave.s c  b: endfinally  c: ret }
  .method public static void 'a branch out of a try'() cil managed {
    .try a to b finally handler b to c
    a: br.s c  b: endfinally  c: ret }
  .method public static void 'a branch into the middle of a try'(bool) cil managed {
    .try a to c finally handler c to d
    ldarg.0  brtrue.s b  a: nop  b: leave.s d  c: endfinally  d: ret }
  .method public static void 'a branch to its start'() cil managed {
    .try a to b finally handler b to c
    br.s a  a: leave.s c  b: endfinally  c: ret }
  .method public static void 'a branch inside it'() cil managed {
    .try a to c finally handler c to d
    a: br.s b  b: leave.s d  c: endfinally  d: ret }
  .method public static void 'a switch out of a try'() cil managed {
    .try a to b finally handler b to c
    a: ldc.i4.0  switch (c)  leave.s c  b: endfinally  c: ret }
  .method public static void 'falling out of a try'() cil managed {
    .try a to b finally handler b to c
    a: nop  b: endfinally  c: ret }
  .method public static void 'falling out of a handler'() cil managed {
    .try a to b finally handler b to c
    a: leave.s c  b: nop  c: ret }
  .method public static void 'falling into a try at its start'() cil managed {
    .try a to b finally handler b to c
    nop  a: leave.s c  b: endfinally  c: ret }
  .method public static void 'leaving a finally clause'() cil managed {
    .try a to b finally handler b to c
    a: leave.s c  b: leave.s c  c: ret }
  .method public static void 'leaving a fault clause'() cil managed {
    .try a to b fault handler b to c
    a: leave.s c  b: leave.s c  c: ret }
  .method public static void 'leaving into the middle of a try'() cil managed {
    .try a to c finally handler c to d
    leave.s b  a: nop  b: leave.s d  c: endfinally  d: ret }
  .method public static void 'leaving for its start'() cil managed {
    .try a to b finally handler b to c
    leave.s a  a: leave.s c  b: endfinally  c: ret }
  .method public static void 'rethrow in no handler'() cil managed { rethrow }
  .method public static void 'rethrow in a finally clause in a catch'() cil managed {
    .try c to d finally handler d to e
    .try a to b catch A handler b to f
    a: leave.s f  b: pop  c: leave.s e  d: rethrow  e: leave.s f  f: ret }
  .method public static void 'rethrow in a catch'() cil managed {
    .try a to b catch A handler b to c
    a: leave.s c  b: rethrow  c: ret }
  .method public static void 'endfinally in a try'() cil managed {
    .try a to b finally handler b to c
    a: endfinally  b: endfinally  c: }
  .method public static void 'endfinally in a catch'() cil managed {
    .try a to b catch A handler b to c
    a: leave.s c  b: endfinally  c: ret }
  .method public static void 'endfinally in no block'() cil managed { endfinally }
  .method public static void 'a filter and its handler'() cil managed {
    .try a to b filter b handler c to d
    a: leave.s d  b: pop  ldc.i4.1  endfilter  c: pop  leave.s d  d: ret }
  .method public static void 'endfilter in no filter'() cil managed { ldc.i4.1 endfilter }
  .method public static void 'endfilter before the end of its filter'() cil managed {
    .try a to b filter b handler c to d
    a: leave.s d  b: pop  ldc.i4.1  endfilter  nop  c: pop  leave.s d  d: ret }
  .method public static void 'rethrow in a filter'() cil managed {
    .try a to b filter b handler c to d
    a: leave.s d  b: rethrow  c: pop  leave.s d  d: ret }
  .method public static void 'rethrow in the handler of a filter'() cil managed {
    .try a to b filter b handler c to d
    a: leave.s d  b: pop  ldc.i4.1  endfilter  c: rethrow  d: ret }
  .method public static void 'clauses that overlap'() cil managed {
    .try a to c finally handler d to e
    .try b to d finally handler e to f
    a: nop  b: nop  c: nop  d: nop  e: ret  f: nop }
  .method public static void 'a clause before those in its try'() cil managed {
    .try a to c finally handler c to e
    .try a to b finally handler b to c
    a: leave.s e  b: endfinally  c: endfinally  e: ret }
  .method public static void 'a clause in the middle of its own try'() cil managed {
    .try a to c finally handler b to d
    a: nop  b: nop  c: nop  d: ret }
  .method public static void 'two clauses of one try'() cil managed {
    .try a to b catch A handler b to c
    .try a to b catch [mscorlib]System.Exception handler c to d
    a: leave.s d  b: pop  leave.s d  c: pop  leave.s d  d: ret }
  .method public static void 'two clauses of one try with one handler'() cil managed {
    .try a to b catch A handler b to c
    .try a to b catch B handler b to c
    a: leave.s c  b: pop  leave.s c  c: ret }
  .method public static void 'a clause before one in its handler'() cil managed {
    .try a to b finally handler b to e
    .try b to c finally handler c to d
    a: leave.s e  b: leave.s d  c: endfinally  d: endfinally  e: ret }
  .method public static void 'a clause behind one in its handler'() cil managed {
    .try b to c finally handler c to d
    .try a to b finally handler b to e
    a: leave.s e  b: leave.s d  c: endfinally  d: endfinally  e: ret }
}
