.assembly A { }
  1..2