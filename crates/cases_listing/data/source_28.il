.assembly extern mscorlib { }
.assembly A { }
.class import serializable autochar C { }