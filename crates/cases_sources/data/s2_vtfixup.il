.assembly A { }
.vtfixup