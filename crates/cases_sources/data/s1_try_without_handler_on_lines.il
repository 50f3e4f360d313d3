.method
void
M()
{
.try
{
}
}