// the defaults
.assembly A { }
