gfsig 1
field 0x13
tower 0x8 0x1
word A input poly a0 a1 a2 a3 a4 a5 a6 a7
word Z output poly z0 z1 z2 z3 z4 z5 z6 z7
