.assembly A { }
  2.5