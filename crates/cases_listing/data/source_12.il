.assembly extern mscorlib { }
.assembly A { }
.field static int32[...] a .field static int32[0...,0...] b .field static int32[3,] c .field static int32[,,] d .field static int32[1...3,4] e .field static int32[-5...] f