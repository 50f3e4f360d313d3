// the first extern that has a core's name, whatever its alias
.assembly extern X as mscorlib { } .assembly extern netstandard as Z { } .assembly extern mscorlib as Y { } .assembly A { } .class C { }
