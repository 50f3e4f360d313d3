// a comment
.assembly /* here */ A
{ .ver 1:2:3:4 }
