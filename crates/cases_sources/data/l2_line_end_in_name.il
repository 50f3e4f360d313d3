'a
b'