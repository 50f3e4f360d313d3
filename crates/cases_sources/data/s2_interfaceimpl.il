.assembly A { }
.interfaceimpl