gfsig 2
field 0x11b
word A fed poly
word B input poly b[0] b[1] b[2] b[3] b[4] b[5] b[6] b[7]
word Z output poly z[0] z[1] z[2] z[3] z[4] z[5] z[6] z[7]
feed d 0 A[7]
feed d 1 A[6]
feed d 2 A[5]
feed d 3 A[4]
feed d 4 A[3]
feed d 5 A[2]
feed d 6 A[1]
feed d 7 A[0]
