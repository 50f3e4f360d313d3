.field
int32
in