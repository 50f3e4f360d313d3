.assembly extern mscorlib { }
.assembly A { }
.field static valuetype S X at Q
.class sequential S extends [mscorlib]System.ValueType {
.size -5
}
.data Q = int8[10]