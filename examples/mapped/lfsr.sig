gfsig 2
field 0x11b
word A input poly a[0] a[1] a[2] a[3] a[4] a[5] a[6] a[7]
word B input poly b[0] b[1] b[2] b[3] b[4] b[5] b[6] b[7]
word Z output poly z[0] z[1] z[2] z[3] z[4] z[5] z[6] z[7]
feed reset 0 1
feed load 1 1
feed enable 2 1
feed enable 3 1
feed enable 4 1
feed enable 5 1
feed enable 6 1
feed enable 7 1
feed enable 8 1
feed enable 9 1
