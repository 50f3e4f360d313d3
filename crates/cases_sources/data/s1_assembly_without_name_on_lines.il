.assembly
{
}