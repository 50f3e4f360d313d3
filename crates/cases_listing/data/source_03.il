.assembly extern Lib as A { .ver 1:0:0:0 }
.assembly extern Lib as B { .ver 2:0:0:0 }
.assembly X { }