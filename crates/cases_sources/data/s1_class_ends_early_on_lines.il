.class
C
extends