.assembly A { }
calli