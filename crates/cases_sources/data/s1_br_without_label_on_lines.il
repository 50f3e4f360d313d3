.method
void
M()
{
br
}