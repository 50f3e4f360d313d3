.assembly A { }
  a.''