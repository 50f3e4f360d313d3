.assembly A { }
.namespace