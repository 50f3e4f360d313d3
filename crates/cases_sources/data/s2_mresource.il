.assembly A { }
.mresource