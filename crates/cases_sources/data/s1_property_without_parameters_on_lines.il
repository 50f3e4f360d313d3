.property
int32
P
{
}