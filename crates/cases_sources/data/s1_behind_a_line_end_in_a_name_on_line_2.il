.assembly A { }
  'a\
b' x