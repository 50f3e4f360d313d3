.assembly A { }
  "\q"