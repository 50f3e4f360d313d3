.assembly A { }
  a 0.5