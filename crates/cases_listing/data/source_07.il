.assembly extern mscorlib { }
.assembly A { }
.class interface abstract I { .method public abstract virtual instance void M() cil managed { } }
.class C implements I { .method public virtual instance void M() cil managed { .override I::M ret } }