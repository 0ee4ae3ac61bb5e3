gfsig 2
field 0x13
word S0 state poly r0[0] r0[1] r0[2] r0[3]
word S1 state poly r1[0] r1[1] r1[2] r1[3]
word Z output poly r1[0] r1[1] r1[2] r1[3]
feed reset 0 0
feed enable 0 0
feed d[0] 0 0
feed d[1] 0 0
feed d[2] 0 0
feed d[3] 0 0
