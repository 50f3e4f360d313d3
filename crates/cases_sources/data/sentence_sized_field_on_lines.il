.field
int32
[1]
x