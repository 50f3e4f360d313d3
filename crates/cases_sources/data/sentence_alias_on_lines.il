.assembly
extern
A
as
B
{
}