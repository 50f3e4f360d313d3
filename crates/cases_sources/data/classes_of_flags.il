// a word of a group replaces it, and `flags` adds
.assembly extern mscorlib { } .assembly A { } .class public flags(6) C { } .class flags(6) public D { } .class public private E { } .class private sequential explicit public unicode autochar F { } .class public sealed abstract flags(0x80000000) G { .class nested family nested famorassem flags(0x400) N { } }
