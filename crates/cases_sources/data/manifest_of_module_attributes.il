// attributes outside of classes are the module's, unless they follow a field
.assembly A { } .custom void '<Module>'::.ctor() = (01) .field int32 F .custom void '<Module>'::.ctor() = (02) .custom void '<Module>'::.ctor() = (03) .data D = int8 .custom void '<Module>'::.ctor() = (04) .method static void M() cil managed { } .custom void '<Module>'::.ctor() = (05)
