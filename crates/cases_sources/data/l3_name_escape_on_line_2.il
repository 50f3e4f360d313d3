.assembly A { }
  '\x'