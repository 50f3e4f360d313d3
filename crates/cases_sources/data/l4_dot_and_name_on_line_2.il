.assembly A { }
  12.x