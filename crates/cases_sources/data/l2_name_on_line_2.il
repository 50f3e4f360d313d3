.assembly A { }
  'abc