gfsig 1
field 0x3
word A input poly d
word Z output poly q
