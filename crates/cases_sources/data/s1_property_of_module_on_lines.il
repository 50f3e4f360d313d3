.property
int32
P()
{
.get
int32
X::G()
}