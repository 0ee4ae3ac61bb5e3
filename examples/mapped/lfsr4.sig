gfsig 2
field 0x13
word A input poly a[0] a[1] a[2] a[3]
word B input poly b[0] b[1] b[2] b[3]
word Z output poly z[0] z[1] z[2] z[3]
feed reset 0 1
feed load 1 1
feed enable 2 1
feed enable 3 1
feed enable 4 1
feed enable 5 1
