.assembly A { }
  

 a ^