"""The text of netlists in ASCII AIGER, and their net."""
import re

from .nets import Net
from .signature import lines_of

NUMBER = re.compile(rb'[0-9]+\Z')
SYMBOL = re.compile(rb'([ilo])([0-9]+) ([\x20-\x7e]{1,255})\Z')


class Reader:
    def __init__(self, data, file):
        self.file, self.lines, self.at = file, lines_of(data), 0
        self.header()
        self.defined, self.uses = {}, []
        self.inputs = [self.numbers(1, 1)[0] for _ in self.defining('I')]
        self.latches = [self.latch() for _ in self.defining('L')]
        self.outputs = [self.using(self.numbers(1, 1))[0] for _ in range(self.size['O'])]
        self.ands = [self.conjunction() for _ in range(self.size['A'])]
        self.symbols()

    def fault(self, number, text):
        return Net(self.file).fault(number, text)

    def syntax(self):
        return self.fault(30, 'netlist line %d' % self.at)

    def next_line(self):
        self.at += 1
        if self.at > len(self.lines):
            raise self.syntax()
        return self.lines[self.at - 1]

    def values(self, tokens):
        if not all(NUMBER.match(t) and int(t) < 1 << 32 for t in tokens):
            raise self.syntax()
        return [int(t) for t in tokens]

    def header(self):
        tokens = self.next_line().split(b' ')
        tokens = [t for t in tokens if t]
        if not tokens or tokens[0] not in (b'aag', b'aig') or not 5 <= len(tokens) - 1 <= 9:
            raise self.syntax()
        numbers = self.values(tokens[1:])
        if tokens[0] == b'aig':
            raise self.fault(31, 'aig at line 1')
        extra = next((n for n in numbers[5:] if n), None)
        if extra is not None:
            raise self.fault(31, '%d at line 1' % extra)
        self.size = dict(zip('MILOA', numbers))

    def numbers(self, least, most):
        tokens = [t for t in self.next_line().split(b' ') if t]
        if not least <= len(tokens) <= most:
            raise self.syntax()
        self.now = self.values(tokens)
        return self.now

    def literal(self, values):
        if any(v > 2 * self.size['M'] + 1 for v in values):
            raise self.fault(46, 'literal at line %d' % self.at)

    def define(self, literal, values):
        if any(v > 2 * self.size['M'] + 1 for v in values) or literal < 2 or literal & 1:
            raise self.fault(46, 'literal at line %d' % self.at)
        if literal in self.defined:
            raise self.fault(46, 'defined twice at line %d' % self.at)
        self.defined[literal] = self.at

    def defining(self, kind):
        for place in range(self.size[kind]):
            yield place
            self.define(self.now[0], self.now[:1] if kind == 'I' else self.now[:2])

    def using(self, literals):
        self.literal(literals)
        self.uses.append((self.at, literals))
        return literals

    def latch(self):
        values = list(self.numbers(2, 3))
        if len(values) == 3 and values[2] not in (0, 1, values[0]):
            raise self.syntax()
        start = values[2] if len(values) == 3 else 0
        self.uses.append((self.at, [values[1]]))
        return values[0], values[1], None if start > 1 else start, self.at

    def conjunction(self):
        values = list(self.numbers(3, 3))
        self.define(values[0], values)
        self.uses.append((self.at, values[1:]))
        return tuple(values)

    def symbols(self):
        self.names, size = {}, {'i': 'I', 'l': 'L', 'o': 'O'}
        while self.at < len(self.lines):
            line = self.next_line()
            if line == b'c':
                break
            found = SYMBOL.match(line)
            key = (found[1].decode(), int(found[2])) if found else None
            if key is None or key[1] >= self.size[size[key[0]]] or key in self.names:
                raise self.syntax()
            self.names[key] = found[3]

    def name(self, kind, place):
        return self.names.get((kind, place), b'%s%d' % (kind.encode(), place))

    def check(self):
        for line, literals in sorted(self.uses):
            if any(v > 1 and v & ~1 not in self.defined for v in literals):
                raise self.fault(46, 'undefined at line %d' % line)
        met = {}
        first = 1 + self.size['I'] + self.size['L']
        ports = [('i', p, l, 2 + p) for p, l in enumerate(self.inputs)]
        ports += [('l', p, l[0], l[3]) for p, l in enumerate(self.latches)]
        ports += [('o', p, l, 1 + first + p) for p, l in enumerate(self.outputs)]
        for kind, place, literal, line in ports:
            name = self.name(kind, place)
            if kind == 'o' and met.get(name) == literal:
                continue
            if name in met:
                raise self.fault(46, 'name twice at line %d' % line)
            met[name] = literal if kind != 'o' else None

    def build(self):
        self.check()
        net = self.net = Net(self.file)
        self.of = {}
        for p, literal in enumerate(self.inputs):
            self.of[literal] = net.net(self.name('i', p))
            net.inputs.append(self.of[literal])
        for p, latch in enumerate(self.latches):
            self.of[latch[0]] = net.net(self.name('l', p))
        for literal, _, _ in self.ands:
            self.of[literal] = net.fresh(b'%d' % literal)
        for literal, left, right in self.ands:
            self.conjoin(literal, left, right)
        for literal, following, start, _ in self.latches:
            net.latch(self.read(following), self.of[literal], start)
        for p, literal in enumerate(self.outputs):
            self.port(p, literal)
        return net.finish()

    def conjoin(self, literal, left, right):
        inputs = [self.of[v & ~1] for v in (left, right) if v > 1]
        wide, table = len(inputs), 0
        for index in range(1 << wide):
            bits = iter((index >> i) & 1 for i in range(wide))
            if all((next(bits) ^ (v & 1)) if v > 1 else v for v in (left, right)):
                table |= 1 << index
        self.net.gate(self.of[literal], inputs, table)

    def drive(self, out, literal):
        if literal < 2:
            self.net.gate(out, [], literal)
        else:
            self.net.gate(out, [self.of[literal & ~1]], 1 if literal & 1 else 2)

    def read(self, literal):
        if literal > 1 and not literal & 1:
            return self.of[literal]
        out = self.net.fresh(b'%d' % literal)
        self.drive(out, literal)
        return out

    def port(self, place, literal):
        name = self.name('o', place)
        if self.net.names.get(name) is not None and self.of.get(literal) == self.net.names[name]:
            self.net.outputs.append(self.net.names[name])
            return
        out = self.net.net(name)
        self.net.outputs.append(out)
        self.drive(out, literal)


def read_aiger(data, file):
    return Reader(data, file).build()
