.method
void
M
{
}