.assembly A { }
.line