.assembly A { }
.pdirect