.assembly A { }
  é