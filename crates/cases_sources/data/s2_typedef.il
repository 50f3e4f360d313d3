.assembly A { }
.typedef