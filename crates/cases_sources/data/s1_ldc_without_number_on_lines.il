.method
void
M()
{
ldc.i4
}