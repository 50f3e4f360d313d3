.assembly A { }
  "a
b"