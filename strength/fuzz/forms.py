"""Cases of strength/run sizes over hierarchies, netlists in Verilog and ASCII AIGER, specifications, certificates and tables."""
from full import FORMS
from large import FULL, NETS, SIGNATURE, WIRE, Case, filled, numbered, times


def hierarchy(name, command, text, status, line):
    return Case('%s: %s' % (command, name), command + ' BLOCK HIER', {'BLOCK': FORMS['BLOCK'][0], 'HIER': text}, status, line + '\n')


def verilog(name, text, status, line):
    return Case('Verilog: ' + name, 'abstract S F.v', {'S': SIGNATURE, 'F.v': text}, status, line + '\n')


def aiger(name, text, status, line):
    return Case('AIGER: ' + name, 'abstract S F.aag', {'S': SIGNATURE, 'F.aag': text}, status, line + '\n')


def specification(name, text, status, line):
    return Case('specification: ' + name, 'check S F SPEC', {'S': SIGNATURE, 'F': WIRE, 'SPEC': text}, status, line + '\n')


def certificate(name, text, status, line):
    return Case('certificate: ' + name, 'verify S F CERT', {'S': SIGNATURE, 'F': WIRE, 'CERT': text}, status, line + '\n')


def table(name, text, status, line):
    return Case('table: ' + name, 'lift S TABLE', {'S': SIGNATURE, 'TABLE': text}, status, line + '\n')


def instances(count):
    """The given number of instances of a model without ports."""
    return filled(WIRE, b'.subckt e\n', len(WIRE) + 10 * count + len(EMPTY), EMPTY)


def ports(count, before, port, after):
    """The given number of instances of a model whose one port stands as often in it: the pieces before, at each time and after."""
    def pieces():
        yield WIRE
        for _ in range(count // 1000):
            yield b'.subckt e\n' * 1000
        yield b'.end\n.model e\n' + before
        for _ in range(count // 1000):
            yield port * 1000
        yield after + b'.names y\n1\n.end\n'
    return pieces


def row_of(count):
    """The given number of instances, one after the other, of the wire m from a to z."""
    def pieces():
        yield b'.model top\n.inputs a\n.outputs z\n.subckt m a=a z=n1\n'
        for i in range(1, count - 1):
            yield b'.subckt m a=n%d z=n%d\n' % (i, i + 1)
        yield b'.subckt m a=n%d z=z\n.end\n' % (count - 1) + WIRE
    return pieces


def nested(count):
    """The given number of models, of which each has an instance of the next one; the last is a wire."""
    def pieces():
        for i in range(1, count):
            yield b'.model m%d\n.inputs a\n.outputs z\n.subckt m%d a=a z=z\n.end\n' % (i, i + 1)
        yield WIRE.replace(b'model m', b'model m%d' % count)
    return pieces


def inverters(count):
    """Verilog: the given number of inverters, one after the other, from a to z."""
    def pieces():
        yield b'module m(input a, output z);\nwire n0'
        for i in range(1, count - 1):
            yield b',\nn%d' % i
        yield b';\nnot (n0, a)'
        for i in range(1, count - 1):
            yield b',\n(n%d, n%d)' % (i, i - 1)
        yield b',\n(z, n%d);\nendmodule\n' % (count - 2)
    return pieces


def negations(count):
    """ASCII AIGER: the given number of ANDs, one after the other, each of the negation of the one before and the constant 1."""
    def pieces():
        yield b'aag %d 1 0 1 %d\n2\n%d\n' % (count + 1, count, 2 * count + 2)
        for i in range(1, count + 1):
            yield b'%d %d 1\n' % (2 * i + 2, 2 * i + 1)
        yield b'i0 a\no0 z\n'
    return pieces


def shifted(count):
    """ASCII AIGER: the given number of outputs on one net, each with the name that the next one has if it is given none."""
    def pieces():
        yield b'aag 1 1 0 %d 0\n2\n' % count
        yield b'2\n' * count
        for i in range(count):
            yield b'o%d o%d\n' % (i, i + 1)
    return pieces


EMPTY = b'.end\n.model e\n.end\n'
ASSIGNED = b'module m(input a, output z);\n  assign z = a'
WIRED = FORMS['F.aag'][0]
CLAIM, PAIRS = b'gfcert 2\nclaim Z = A', b'\nlet 0 : 0x1\nnet 1 : #0\nbit A[0] : #0\n'
VALID = 'valid\nZ = A'
ACCEPTED = 'accepted\nZ = A'

HIERARCHIES = [
    hierarchy('1,048,576 instances', 'abstract', instances(1048576), 0, 'Z = A'),
    hierarchy('1,048,577 instances', 'abstract', instances(1048577), 2, 'fault 38: too many instances in HIER'),
    hierarchy('1,000,000 instances, and lines of their one output', 'abstract', ports(1000000, b'', b'.outputs y\n', b''), 0, 'Z = A'),
    hierarchy('1,000,000 instances, and a line of their one output', 'abstract', ports(1000000, b'.outputs', b' y', b'\n'), 0, 'Z = A'),
    hierarchy('64 models deep', 'abstract', nested(64), 0, 'Z = A'),
    hierarchy('65 models deep', 'abstract', nested(65), 2, 'fault 32: more than 64 models deep in HIER'),
    hierarchy('1,048,575 instances, one behind the other', 'abstract', row_of(1048575), 0, 'Z = A'),
    hierarchy('1,048,575 instances, one behind the other', 'compose', row_of(1048575), 0, 'Z = A'),
    hierarchy('1,048,576 instances, one behind the other', 'compose', row_of(1048576), 2, 'fault 38: too many nets in HIER'),
]

VERILOG = [
    verilog('1,048,576 nets', inverters(NETS - 1), 0, 'Z = A + 0x1'),
    verilog('1,048,577 nets', inverters(NETS), 2, 'fault 38: too many nets in F.v'),
    verilog('nothing but LF', filled(b'', b'\n'), 2, 'fault 30: netlist line 67108865 in F.v'),
    verilog('one token', filled(b'', b'a'), 2, 'fault 30: netlist line 1 in F.v'),
    verilog('one open comment', filled(b'/*', b'\n'), 2, 'fault 30: netlist line 1 in F.v'),
    verilog('one expression', times(ASSIGNED, b'^a', b';\nendmodule\n'), 2, 'fault 38: too many nets in F.v'),
    verilog('nothing but (', filled(b'module m(input a, output z);\n  assign z =', b'('), 2, 'fault 31: ( at line 2 in F.v'),
    verilog('one list of wires', times(ASSIGNED + b';\nwire w', b',w', b';\nendmodule\n'), 0, 'Z = A'),
    verilog('wires of 65,536 bits', numbered(ASSIGNED + b';\n', b'wire [65535:0] v%d;\n', 2500000, b'endmodule\n'), 0, 'Z = A'),
]

AIGER = [
    aiger('1,048,576 nets', negations(NETS - 2), 0, 'Z = A'),
    aiger('1,048,577 nets', negations(NETS - 1), 2, 'fault 38: too many nets in F.aag'),
    aiger('nothing but LF', filled(b'', b'\n'), 2, 'fault 30: netlist line 1 in F.aag'),
    aiger('one token', filled(b'', b'a'), 2, 'fault 30: netlist line 1 in F.aag'),
    aiger('one number', filled(b'aag 1 1 0 1 0\n', b'0', FULL, WIRED[14:]), 0, 'Z = A'),
    aiger('lines of one input', filled(b'aag 33554420 33554420 0 0 0\n', b'2\n'), 2, 'fault 46: defined twice at line 3 in F.aag'),
    aiger('lines of outputs', times(b'aag 1 1 0 33554420 0\n', b'2\n'), 2, 'fault 38: too many nets in F.aag'),
    aiger('lines of outputs, and a name', times(b'aag 1 1 0 33554418 0\n', b'2\n', b'o0 z\n'), 2, 'fault 38: too many nets in F.aag'),
    aiger('3,000,000 outputs, each with the name of the next', shifted(3000000), 2, 'fault 38: too many nets in F.aag'),
    aiger('lines of names', times(WIRED[:-2], b'o0 z\n'), 2, 'fault 30: netlist line 6 in F.aag'),
]

SPECIFICATIONS = [
    specification('nothing but LF', filled(b'', b'\n'), 2, 'fault 40: syntax at byte 67108864'),
    specification('one name', filled(b'', b'a'), 2, 'fault 41: unknown word at byte 0'),
    specification('one number', filled(b'Z = A*0x', b'0', FULL, b'1'), 0, ACCEPTED),
    specification('one exponent', filled(b'Z = A^', b'0', FULL, b'1'), 0, ACCEPTED),
    specification('one term of 4,000,001 factors', filled(b'Z=A', b'*A', 8000003), 0, ACCEPTED),
    specification('4,000,001 terms', filled(b'Z=A', b'+A', 8000003), 0, ACCEPTED),
]

CERTIFICATES = [
    certificate('nothing but LF', filled(b'', b'\n'), 2, 'fault 50: certificate line 1'),
    certificate('one token', filled(b'', b'a'), 2, 'fault 50: certificate line 1'),
    certificate('one claim', times(CLAIM, b'+A+A', PAIRS + b'end\n'), 0, VALID),
    certificate('lines of pairs', times(CLAIM + PAIRS, b'net 1 : 0\n', b'end\n'), 0, VALID),
    certificate('1,000,000 shared multipliers', numbered(CLAIM + b'\n', b'let %d : 0x1\n', 1000000, b'net 1 : #7\nbit A[0] : #8\nend\n'), 0, VALID),
    certificate('no end line', times(CLAIM + PAIRS, b'bit A[0] : 0\n'), 2, 'fault 54: no end line'),
]

TABLES = [
    table('nothing but LF', filled(b'', b'\n'), 2, 'fault 56: table line 1'),
    table('one token', filled(b'', b'a'), 2, 'fault 56: table line 1'),
    table('lines of rows', times(b'gftable 1\n', b'0x0\n'), 2, 'fault 56: table line 4'),
]

OTHERS = HIERARCHIES + VERILOG + AIGER + SPECIFICATIONS + CERTIFICATES + TABLES
