.assembly A { }
  1e5