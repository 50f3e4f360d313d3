.assembly A { }
jmp