gfsig 1
field 0x7
tower 0x2 0x1
word A input poly a0 a1 a2 a3
word B input poly b0 b1 b2 b3
word Z output poly z0 z1 z2 z3
