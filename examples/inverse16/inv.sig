gfsig 1
field 0x13
word A input poly a0 a1 a2 a3
word Z output poly z0 z1 z2 z3
