.assembly A { }
.permission