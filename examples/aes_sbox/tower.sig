gfsig 1
field 0x11b
word A input poly a[0] a[1] a[2] a[3] a[4] a[5] a[6] a[7]
word Z output poly z[0] z[1] z[2] z[3] z[4] z[5] z[6] z[7]
