.assembly A { }
  \