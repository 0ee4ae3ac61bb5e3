"""Cases of strength/run sizes over every command that reads files: each file of its call with as many bytes as a file may have,
which is taken, and with one more, which is refused."""
from large import FULL, SIGNATURE, TWO_BITS, WIRE, Case, filled

TOP = b'.model top\n.inputs a\n.outputs z\n.subckt m a=a z=z\n.end\n'
CERTIFICATE = b'gfcert 2\nclaim Z = A\nlet 0 : 0x1\nnet 1 : #0\nbit A[0] : #0\nend\n'

# A file by its name in the calls: what it begins with, what is put in until it has the size that is wanted, and its end.
FORMS = {
    'S': (SIGNATURE, b'# abcdef\n', b''),
    'F': (WIRE, b'# abcdef\n', b''),
    'F2': (WIRE, b'# abcdef\n', b''),
    'F.v': (b'module m(input a, output z);\n  assign z = a;\nendmodule\n', b'// abcdef\n', b''),
    'F.aag': (b'aag 1 1 0 1 0\n2\n2\ni0 a\no0 z\nc\n', b'abcdef\n', b''),
    'SPEC': (b'Z = A', b' \t\r\n', b''),
    'CERT': (CERTIFICATE[:-1], b' ', b'\n'),
    'TABLE': (b'gftable 1\n0x0\n0x', b'0', b'1\n'),
    'FIELD': (TWO_BITS, b'# abcdef\n', b''),
    'TOWER': (b'gfsig 1\nfield 0x3\ntower 0x1 0x1\nword Z output poly z0 z1\n', b'# abcdef\n', b''),
    'BLOCK': (SIGNATURE + b'block m\nword A input poly a\nword Z output poly z\n', b'# abcdef\n', b''),
    'HIER': (TOP + WIRE, b'# abcdef\n', b''),
}

# What each call prints, whatever size its files have.
CALLS = {
    'bits S F': 'Z = A[0]\n',
    'abstract S F': 'Z = A\n',
    'abstract S F.v': 'Z = A\n',
    'abstract S F.aag': 'Z = A\n',
    'abstract BLOCK HIER': 'Z = A\n',
    'check S F SPEC': 'accepted\nZ = A\n',
    'same S F F2': 'same\n',
    'same S F.v F.aag': 'same\n',
    'eval S F 0x1': 'Z = 0x1\n',
    'iso FIELD TOWER': '0x1\n0x2\n',
    'lift S TABLE': 'Z = A\n',
    'table S F': 'gftable 1\n0x0\n0x1\n',
    'make squarer S': '.model make\n.inputs a\n.outputs z\n.names a z\n1 1\n.end\n',
    'compose BLOCK HIER': 'Z = A\n',
    'certify S F': CERTIFICATE.decode(),
    'verify S F CERT': 'valid\nZ = A\n',
    'upgrade S F CERT': CERTIFICATE.decode(),
}


def case(call, large, size, status, text):
    """A case in which the file of this name has this size, and the other files of the call are small."""
    files = {file: filled(head, piece, size if file == large else len(head) + len(tail), tail)
             for file, (head, piece, tail) in FORMS.items() if file in call.split(' ')}
    return Case('{}: {} of {:,} bytes'.format(call, large, size), call, files, status, text)


def cases_of(call, text):
    """The cases of a call: each of its files in turn is as large as may be, and then larger."""
    for file in call.split(' '):
        if file in FORMS:
            yield case(call, file, FULL, 0, text)
            yield case(call, file, FULL + 1, 2, 'fault 11: %s has more than 67108864 bytes\n' % file)


EVERY = [made for call, text in CALLS.items() for made in cases_of(call, text)]
