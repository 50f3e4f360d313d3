.assembly A { }
  1E-5