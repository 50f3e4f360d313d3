.field
int32
at