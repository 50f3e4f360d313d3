.assembly extern mscorlib { }
.assembly A { }
.field static valuetype S X at Q
.data Q = int8[5000000000]
.class sequential S extends [mscorlib]System.ValueType {
.size 6000000000
}