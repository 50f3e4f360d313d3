.assembly A { }
.vtentry