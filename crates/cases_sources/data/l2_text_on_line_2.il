.assembly A { }
  "abc