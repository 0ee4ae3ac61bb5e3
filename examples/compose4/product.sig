gfsig 1
field 0x7
word A input poly a0 a1
word B input poly b0 b1
word C input poly c0 c1
word Z output poly z0 z1
block mul
word A input poly a0 a1
word B input poly b0 b1
word Z output poly z0 z1
