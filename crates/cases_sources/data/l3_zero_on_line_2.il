.assembly A { }
  "\000"