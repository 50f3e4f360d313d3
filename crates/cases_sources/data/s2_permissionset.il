.assembly A { }
.permissionset