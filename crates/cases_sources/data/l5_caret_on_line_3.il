

 a ^