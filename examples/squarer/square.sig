gfsig 1
field 0xb
word A input normal:0x3 a0 a1 a2
word Z output normal:0x3 a2 a0 a1
