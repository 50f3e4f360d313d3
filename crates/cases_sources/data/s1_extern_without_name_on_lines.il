.assembly
extern
{
}