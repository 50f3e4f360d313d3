.assembly A { }
  ''