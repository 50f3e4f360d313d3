.data
D
=