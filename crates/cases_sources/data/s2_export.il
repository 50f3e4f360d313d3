.assembly A { }
.export