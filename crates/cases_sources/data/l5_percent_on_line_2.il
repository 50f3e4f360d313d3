.assembly A { }
  %