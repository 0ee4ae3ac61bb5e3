"""Small calls of every command, with their files: what `hostile` and `memory` share."""
import os

S4 = 'gfsig 1\nfield 0x7\nword A input poly a0 a1\nword B input poly b0 b1\nword Z output poly z0 z1\n'
S4A = 'gfsig 1\nfield 0x7\nword A input poly a0 a1\nword Z output poly z0 z1\n'
SUM = '10 1\n01 1\n'
MUL = ('.model mul\n.inputs a0 a1 b0 b1\n.outputs z0 z1\n.names a0 b0 p0\n11 1\n.names a0 b1 p1\n11 1\n.names a1 b0 p2\n11 1\n'
       '.names a1 b1 p3\n11 1\n.names p0 p3 z0\n' + SUM + '.names p1 p2 t\n' + SUM + '.names t p3 z1\n' + SUM + '.end\n')
DBL = '.model dbl\n.inputs a0 a1\n.outputs z0 z1\n.names a1 z0\n1 1\n.names a0 a1 z1\n' + SUM + '.end\n'
SQ = '.model sq\n.inputs a0 a1\n.outputs z0 z1\n.names a0 a1 z0\n' + SUM + '.names a1 z1\n1 1\n.end\n'


def words_of(text):
    """The lines of the words of a signature, as a block of this signature has them."""
    return text[text.index('word'):]


FILES = {
    's4': S4, 'mul': MUL, 'mulor': MUL.replace('z0\n' + SUM, 'z0\n' + SUM + '11 1\n'),
    # as `certify s4 mul` prints it
    'cert': 'gfcert 2\nclaim Z = A*B\nlet 0 : 0x2\nnet 5 : #0\nnet 10 : #0\nlet 1 : 0x1\nnet 4 : #1\nnet 9 : 0x3\nnet 8 : #0\n'
            'net 7 : #0\nnet 6 : #1\nbit A[0] : B[0]\nbit A[0] : 0x2*B[1]\nbit A[1] : 0x2*B[0]\nbit A[1] : 0x3*B[1]\n'
            'bit B[0] : A\nbit B[1] : 0x2*A\nend\n',
    # the same pairs in version 1
    'gfcert1': 'gfcert 1\nclaim Z = A*B\nnet 5 : 0x2\nnet 10 : 0x2\nnet 4 : 0x1\nnet 9 : 0x3\nnet 8 : 0x2\nnet 7 : 0x2\nnet 6 : 0x1\n'
               'bit A[0] : B[0]\nbit A[0] : 0x2*B[1]\nbit A[1] : 0x2*B[0]\nbit A[1] : 0x3*B[1]\nbit B[0] : A\nbit B[1] : 0x2*A\nend\n',
    's4h': S4 + 'block mul\n' + words_of(S4),
    'hier': '.model top\n.inputs a0 a1 b0 b1\n.outputs z0 z1\n.subckt mul a0=a0 a1=a1 b0=b0 b1=b1 z0=t0 z1=t1\n'
            '.subckt mul a0=t0 a1=t1 b0=a0 b1=a1 z0=z0 z1=z1\n.end\n' + MUL,
    's4f': S4A + 'block dbl\n' + words_of(S4A) + 'block sq\n' + words_of(S4A),
    'frob': '.model top\n.inputs a0 a1\n.outputs z0 z1\n.subckt dbl a0=a0 a1=a1 z0=t0 z1=t1\n.subckt sq a0=t0 a1=t1 z0=z0 z1=z1\n'
            '.end\n' + DBL + SQ,
    'sv': 'gfsig 1\nfield 0x7\nword A input poly a[0] a[1]\nword B input poly b[0] b[1]\nword Z output poly z[0] z[1]\n',
    'm.v': 'module mul(a, b, z);\n  input [1:0] a, b;\n  output [1:0] z;\n  wire p3;\n  and g1(p3, a[1], b[1]);\n'
           '  assign z[0] = a[0] & b[0] ^ p3;\n  assign z[1] = a[0] & b[1] ^ a[1] & b[0] ^ p3;\nendmodule\n',
    's2': 'gfsig 1\nfield 0x3\nword A input poly a\nword B input poly b\nword Z output poly z\n',
    'm.aag': 'aag 3 2 0 1 1\n2\n4\n6\n6 2 4\ni0 a\ni1 b\no0 z\n',
    'spec': 'Z = A*B + 0x2*A^2*B^2 + 0x3\n', 'ab': 'Z = A*B\n',
    'sd': 'gfsig 2\nfield 0x7\nword A fed poly\nword B input poly b0 b1\nword Z output poly z0 z1\nfeed d 0 A[1]\nfeed d 1 A[0]\n',
    'd': '.model d\n.inputs b0 b1 d\n.outputs z0 z1\n.latch n0 z0 0\n.latch n1 z1 0\n.names d b0 p0\n11 1\n.names d b1 p1\n11 1\n'
         '.names z1 p0 n0\n10 1\n01 1\n.names z0 z1 p1 n1\n100 1\n010 1\n001 1\n111 1\n.end\n',
    'sh': S4A + 'block dbl\n' + words_of(S4A),
    'h': '.model top\n.inputs a0 a1\n.outputs z0 z1\n.subckt dbl a0=a0 a1=a1 z0=t0 z1=t1\n.subckt dbl a0=t0 a1=t1 z0=z0 z1=z1\n'
         '.end\n' + DBL,
    'sw': 'gfsig 1\nfield 0x7\nword A input poly a0 a1\nword Z output poly a0 a1\n', 'w': '.model w\n.inputs a0 a1\n.outputs a0 a1\n.end\n',
    'c': 'gfcert 2\nclaim Z = A\nlet 0 : 0x1\nbit A[0] : #0\nbit A[1] : 0x2\nend\n',
    't': 'gftable 1\n0x1\n0x0\n0x3\n0x0\n', 'b16': 'gfsig 1\nfield 0x13\nword Z output poly z0 z1 z2 z3\n',
    't16': 'gfsig 1\nfield 0x7\ntower 0x2 0x1\nword Z output poly z0 z1 z2 z3\n',
}
CALLS = [
    'bits sv m.v', 'abstract sv m.v', 'abstract sd d --cycles 2 --simplify', 'check s4 mulor ab --simplify', 'same s4 mul mulor --simplify', 'abstract s2 m.aag', 'check sv m.v spec', 'same s2 m.aag m.aag', 'eval s2 m.aag 0x1 0x1',
    'abstract sd d --cycles 2', 'abstract sh h', 'compose sh h', 'certify sw w', 'verify sw w c', 'upgrade sw w c', 'table sw w',
    'lift sw t', 'iso b16 t16', 'make mastrovito s4', 'make digit sd', 'trial 3 0x7',
    'certify s4 mul', 'verify s4 mul cert', 'verify s4 mul gfcert1', 'same s4 mul mulor', 'same s4 mul mul', 'abstract s4h hier',
    'compose s4h hier', 'compose s4f frob',
]


def small_calls(folder):
    """The words of the calls, whose files are written into the folder."""
    for name, text in FILES.items():
        with open(os.path.join(folder, name), 'w') as file:
            file.write(text)
    return [[os.path.join(folder, w) if w in FILES else w for w in call.split(' ')] for call in CALLS]
