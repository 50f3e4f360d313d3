.class
C
}