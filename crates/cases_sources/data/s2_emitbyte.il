.assembly A { }
.emitbyte