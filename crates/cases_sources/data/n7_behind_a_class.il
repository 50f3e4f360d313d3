.assembly extern mscorlib { .publickey = (0A) .culture "de" + "x" }
.imagebase 0x10000
.stackreserve 0xFFFFFFFF
.subsystem 2
.class public serializable  C0<class + T> {

}