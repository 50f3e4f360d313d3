.assembly A { }
.zeroinit