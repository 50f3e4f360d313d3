.assembly A { }
  /* x