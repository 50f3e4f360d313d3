.assembly A { }
  0x10.5