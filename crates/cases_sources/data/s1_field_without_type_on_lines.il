.class
C
{
.field
}