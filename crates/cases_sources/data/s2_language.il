.assembly A { }
.language