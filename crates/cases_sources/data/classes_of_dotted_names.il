// names with dots in quotes, and names that are words elsewhere
.assembly extern mscorlib { } .assembly A { } .class c.d.'a.b' { .method static void 'add'() cil managed { ret } } .class ldc.'i4' extends c.d.'a.b' { }
