gfsig 2
field 0x13
word M0 fed poly
word M1 fed poly
word M2 fed poly
word M3 fed poly
word S0 state poly r0[0] r0[1] r0[2] r0[3]
word S1 state poly r1[0] r1[1] r1[2] r1[3]
word Z output poly r1[0] r1[1] r1[2] r1[3]
feed reset 0 1
feed enable 1 1
feed d[0] 1 M0[0]
feed d[1] 1 M0[1]
feed d[2] 1 M0[2]
feed d[3] 1 M0[3]
feed enable 2 1
feed d[0] 2 M1[0]
feed d[1] 2 M1[1]
feed d[2] 2 M1[2]
feed d[3] 2 M1[3]
feed enable 3 1
feed d[0] 3 M2[0]
feed d[1] 3 M2[1]
feed d[2] 3 M2[2]
feed d[3] 3 M2[3]
feed enable 4 1
feed d[0] 4 M3[0]
feed d[1] 4 M3[1]
feed d[2] 4 M3[2]
feed d[3] 4 M3[3]
