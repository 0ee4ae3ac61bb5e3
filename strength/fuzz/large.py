"""Cases of strength/run sizes, what files of any size are made of, and the cases of `abstract` over signatures and BLIF."""

FULL = 67108864
NETS = 1048576
MANY = 1000000

SIGNATURE = b'gfsig 1\nfield 0x3\nword A input poly a\nword Z output poly z\n'
TWO_BITS = b'gfsig 1\nfield 0x7\nword A input poly a0 a1\nword Z output poly z0 z1\n'
CONSTANT = b'gfsig 1\nfield 0x3\nword Z output poly z\n'
WIRE = b'.model m\n.inputs a\n.outputs z\n.names a z\n1 1\n'


class Case:
    """A case: its name, the words of its call, functions that give the pieces of its files by name, the status and the text."""

    def __init__(self, name, call, files, status, text):
        self.name, self.words, self.status, self.text = name, call.split(' '), status, text
        self.files = {file: pieces_of(source) for file, source in files.items()}


def abstract(name, signature, netlist, status, line):
    """A case of `abstract` over a signature S and a netlist F in BLIF."""
    return Case(name, 'abstract S F', {'S': signature, 'F': netlist}, status, line + '\n')


def pieces_of(source):
    """A function that gives pieces, from bytes or from such a function."""
    return (lambda: [source]) if isinstance(source, bytes) else source


def filled(head, piece, size=FULL, tail=b''):
    """A file of exactly this size: a head, a piece again and again, the first bytes of it at last, a tail."""
    def pieces():
        left = size - len(head) - len(tail)
        block = piece * (65536 // len(piece) + 1)
        yield head
        while left > 0:
            yield block[:left]
            left -= len(block[:left])
        yield tail
    return pieces


def times(head, piece, tail=b''):
    """As many whole pieces as fit into a file of the greatest size, between a head and a tail."""
    count = (FULL - len(head) - len(tail)) // len(piece)
    return filled(head, piece, len(head) + len(tail) + count * len(piece), tail)


def chain(nets, begins=b'.inputs a\n.names a n0\n1 1\n', more=b'', last=b'z'):
    """A chain of inverters: nets n0 up to the last, the given number of them."""
    def pieces():
        yield b'.model m\n.outputs ' + last + b'\n' + begins
        for i in range(1, nets - 1):
            yield b'.names n%d n%d\n0 1\n' % (i - 1, i)
        yield b'.names n%d %s\n0 1\n' % (nets - 2, last)
        yield more
    return pieces


# two inputs, and the second output 0
DEEP = b'.outputs z1\n.names z1\n.inputs a0 a1\n.names a0 n0\n0 1\n'


def cycle(nets):
    """A cycle of gates, with the output word at a wire beside it."""
    def pieces():
        yield WIRE
        for i in range(nets):
            yield b'.names n%d n%d\n1 1\n' % ((i + nets - 1) % nets, i)
    return pieces


def inputs(count):
    """This number of primary inputs, a wire from the first of them to the output word."""
    def pieces():
        yield b'.model m\n.outputs z\n.names a z\n1 1\n.inputs a'
        for i in range(1, count):
            yield b' i%d' % i
        yield b'\n'
    return pieces


WIDE = b'ABCDEFGH'


def wide_nets(letter):
    """The names of 64 nets."""
    return b' '.join(b'%c%d' % (letter, i) for i in range(64))


def wide_signature():
    """A field of 2^64 elements, eight input words and the output word."""
    yield b'gfsig 1\nfield 0x1000000000000001b\nword Z output poly ' + wide_nets(90) + b'\n'
    for letter in WIDE:
        yield b'word %c input poly %s\n' % (letter, wide_nets(letter))


def wide_netlist():
    """Wires from the first word to the output word, and inputs in no word up to the greatest number of nets."""
    yield b'.model m\n.outputs ' + wide_nets(90) + b'\n'
    for letter in WIDE:
        yield b'.inputs ' + wide_nets(letter) + b'\n'
    for i in range(64):
        yield b'.names A%d Z%d\n1 1\n' % (i, i)
    for i in range(NETS - 9 * 64):
        yield b'.inputs i%d\n' % i


def numbered(head, form, count, tail=b''):
    """Lines, or other pieces, with the numbers from 0, between a head and a tail."""
    def pieces():
        yield head
        for i in range(count):
            yield form % i
        yield tail
    return pieces


def names_of(size):
    """Signature and netlist with an input net of a name of this size."""
    name = b'n' * size
    return SIGNATURE.replace(b'poly a', b'poly ' + name), WIRE.replace(b'inputs a', b'inputs ' + name).replace(b'names a', b'names ' + name)


def word_of(size):
    """A signature whose input word has a name of this size."""
    return SIGNATURE.replace(b'word A', b'word ' + b'A' * size)


FIELD = b'gfsig 1\nfield 0x3\n'
WORDS = b'word A input poly a\nword Z output poly z\n'

LIMITS = [
    abstract('net of 255 bytes', *names_of(255), 0, 'Z = A'),
    abstract('net of 256 bytes in the signature', *names_of(256), 2, 'fault 20: signature line 3'),
    abstract('net of 256 bytes in the netlist', SIGNATURE, names_of(256)[1], 2, 'fault 30: netlist line 2 in F'),
    abstract('word of 255 bytes', word_of(255), WIRE, 0, 'Z = ' + 'A' * 255),
    abstract('word of 256 bytes', word_of(256), WIRE, 2, 'fault 20: signature line 3'),
    abstract('1,048,576 nets', SIGNATURE, chain(NETS - 1), 0, 'Z = A'),
    abstract('1,048,577 nets', SIGNATURE, chain(NETS), 2, 'fault 38: too many nets in F'),
    abstract('1,048,576 gates', CONSTANT, chain(NETS, b'.names n0\n'), 0, 'Z = 0x1'),
    abstract('1,048,577 gates', CONSTANT, chain(NETS, b'.names n0\n', b'.names z\n'), 2, 'fault 38: too many gates in F'),
    abstract('1,000,000 inverters', SIGNATURE, chain(MANY, b'.inputs a\n.names a n0\n0 1\n'), 0, 'Z = A'),
    Case('1,000,000 inverters, simplified', 'abstract S F --simplify', {'S': SIGNATURE, 'F': chain(MANY, b'.inputs a\n.names a n0\n0 1\n')}, 0, 'Z = A\n'),
    abstract('100,000 inverters over GF(4)', TWO_BITS, chain(100000, DEEP, last=b'z0'), 0, 'Z = 0x2*A^2 + 0x3*A'),
    abstract('cycle of 1,000,000 gates', SIGNATURE, cycle(MANY), 2, 'fault 36: loop of 1000000 nets through n0 in F'),
    abstract('1,048,575 primary inputs', SIGNATURE, inputs(NETS - 1), 0, 'Z = A'),
    abstract('1,048,576 primary inputs', SIGNATURE, inputs(NETS), 2, 'fault 38: too many nets in F'),
    abstract('1,048,512 primary inputs, 512 in words', wide_signature, wide_netlist, 0, 'Z = A'),
]

SIGNATURES = [
    abstract('signature: nothing but LF', filled(b'', b'\n'), WIRE, 2, 'fault 20: signature line 67108865'),
    abstract('signature: one token', filled(b'', b'a'), WIRE, 2, 'fault 20: signature line 1'),
    abstract('signature: one line of spaces', filled(b'', b' '), WIRE, 2, 'fault 20: signature line 2'),
    abstract('signature: one line of short tokens', filled(b'', b'a '), WIRE, 2, 'fault 20: signature line 1'),
    abstract('signature: one word of nets', filled(FIELD + b'word A input poly', b' a'), WIRE, 2, 'fault 28: no output word'),
    abstract('signature: one word of nets, and the output', filled(FIELD + b'word A input poly', b' a', FULL, b'\nword Z output poly z\n'), WIRE, 2, 'fault 26: bits at line 3'),
    abstract('signature: one basis of numbers', filled(FIELD + b'word A input list:0x1', b',0x1', FULL - 1, b' a\nword Z output poly z\n'), WIRE, 2, 'fault 24: basis at line 3'),
    abstract('signature: one number', filled(b'gfsig 1\nfield 0x', b'0', FULL, b'3\n' + WORDS), WIRE, 0, 'Z = A'),
    abstract('signature: one tower of numbers', times(b'gfsig 1\nfield 0x3\ntower', b' 0x1', b'\n' + WORDS), WIRE, 2, 'fault 25: tower'),
    abstract('signature: lines of words', filled(FIELD, b'word A input poly a\n'), WIRE, 2, 'fault 27: name twice at line 4'),
]

NETLISTS = [
    abstract('nothing but LF', SIGNATURE, filled(b'', b'\n'), 2, 'fault 32: no model in F'),
    abstract('one token', SIGNATURE, filled(b'', b'a'), 2, 'fault 32: no model in F'),
    abstract('one statement', SIGNATURE, filled(b'.', b'a'), 2, 'fault 32: no model in F'),
    abstract('one line of short tokens', SIGNATURE, filled(b'', b'a '), 2, 'fault 32: no model in F'),
    abstract('one line of spaces', SIGNATURE, filled(b'', b' '), 2, 'fault 32: no model in F'),
    abstract('one line of nets', SIGNATURE, filled(b'.model m\n.inputs', b' a'), 2, 'fault 34: net a is driven twice in F'),
    abstract('one line of outputs', SIGNATURE, filled(WIRE + b'.outputs', b' z'), 0, 'Z = A'),
    abstract('one gate of many inputs', SIGNATURE, filled(WIRE + b'.names', b' a'), 2, 'fault 37: 33554405 inputs at line 6 in F'),
    abstract('joined lines', SIGNATURE, filled(WIRE, b'\\\n'), 0, 'Z = A'),
    abstract('joined lines of nets', SIGNATURE, times(WIRE + b'.outputs \\\n', b'z\\\n'), 0, 'Z = A'),
    abstract('empty gates', SIGNATURE, times(WIRE, b'.names\n'), 2, 'fault 30: netlist line 6 in F'),
    abstract('gates without inputs', SIGNATURE, times(WIRE, b'.names z\n'), 2, 'fault 38: too many gates in F'),
    abstract('gates of six inputs', SIGNATURE, times(WIRE, b'.names a a a a a a z\n'), 2, 'fault 38: too many gates in F'),
    abstract('statements of no nets', SIGNATURE, times(WIRE, b'.inputs\n'), 0, 'Z = A'),
    abstract('a cover of equal rows', SIGNATURE, times(WIRE, b'1 1\n'), 0, 'Z = A'),
    abstract('a cover of rows of six inputs', SIGNATURE, times(WIRE + b'.names a a a a a a y\n', b'1----- 1\n'), 0, 'Z = A'),
    abstract('1,000,000 other models', SIGNATURE, numbered(WIRE, b'.model m%d\n', MANY), 0, 'Z = A'),
    abstract('models of one name', SIGNATURE, times(WIRE, b'.model\n'), 2, 'fault 32: model twice at line 7 in F'),
]

ABSTRACT = LIMITS + SIGNATURES + NETLISTS
