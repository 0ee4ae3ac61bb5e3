gfsig 2
field 0x13
word M0 fed poly
word M1 fed poly
word M2 fed poly
word M3 fed poly
word Z output poly s[0] s[1] s[2] s[3]
feed reset 0 1
feed enable 1 1
feed d[0] 1 M0[0]
feed d[1] 1 M0[1]
feed d[2] 1 M0[2]
feed d[3] 1 M0[3]
feed enable 2 1
feed d[0] 2 M1[0]
feed d[1] 2 M1[1]
feed d[2] 2 M1[2]
feed d[3] 2 M1[3]
feed enable 3 1
feed d[0] 3 M2[0]
feed d[1] 3 M2[1]
feed d[2] 3 M2[2]
feed d[3] 3 M2[3]
feed enable 4 1
feed d[0] 4 M3[0]
feed d[1] 4 M3[1]
feed d[2] 4 M3[2]
feed d[3] 4 M3[3]
