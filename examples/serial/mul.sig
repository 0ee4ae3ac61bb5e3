gfsig 2
field 0x7
word A fed poly
word B input poly b0 b1
word Z output poly z0 z1
feed d 0 A[1]
feed d 1 A[0]
