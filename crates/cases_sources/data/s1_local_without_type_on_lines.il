.method
void
M()
{
.locals
([0])
}