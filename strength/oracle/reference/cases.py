"""Random signatures, netlists in all forms and specifications, all small; and texts with one place changed."""
from .fields import Fault, field_of, independent, is_irreducible

TOWERS = [(0x7, [[2, 1]]), (0x7, [[3, 1]]), (0x3, [[1, 1]]), (0x3, [[1, 1], [2, 1]]), (0x3, [[1, 1, 0]]), (0x3, [[1, 0, 1]])]


class Case:
    """A signature's text and what netlists for it need: names by word, and which of them are latches or fed."""

    def __init__(self, random, features):
        self.random, self.features = random, features
        self.modulus, self.towers = self.pick_field()
        towers = self.towers + [[], []]
        self.field = field_of(self.modulus, towers[0], towers[1])
        self.k, self.cycles = self.field.k, 0
        self.free, self.states, self.feeds, self.fed_nets = [], [], [], []
        self.lines = ['field 0x%x' % self.modulus] + ['tower ' + ' '.join('0x%x' % c for c in t) for t in self.towers]
        self.words()

    def pick_field(self):
        random = self.random
        if random.random() < 0.25:
            modulus, towers = random.choice(TOWERS)
            return modulus, [list(t) for t in towers]
        while True:
            modulus = random.randrange(2, 32)
            if is_irreducible(modulus):
                return modulus, []

    def basis(self):
        random, choice = self.random, self.random.random()
        if choice < 0.5:
            return 'poly'
        while True:
            if choice < 0.7:
                gamma = random.randrange(1, self.field.size)
                elements, given = [gamma], 'normal:0x%x' % gamma
                for _ in range(self.k - 1):
                    elements.append(self.field.mul(elements[-1], elements[-1]))
            else:
                elements = [random.randrange(1, self.field.size) for _ in range(self.k)]
                given = 'list:' + ','.join('0x%x' % e for e in elements)
            if independent(elements):
                return given

    def words(self):
        random = self.random
        self.vectors = random.random() < 0.5
        sequential = 'cycles' in self.features and random.random() < 0.5
        inner = random.randint(0 if self.k > 1 else 1, 2 if self.k > 2 else 3)
        fed = []
        for name in ('A', 'B', 'C')[:inner]:
            role = random.choice(['input', 'input', 'state', 'fed']) if sequential else 'input'
            nets = self.names(name.lower())
            if role == 'fed':
                fed.append(name)
                self.lines.append('word %s fed %s' % (name, self.basis()))
                continue
            (self.free if role == 'input' else self.states).extend(nets)
            self.lines.append('word %s %s %s %s' % (name, role, self.basis(), ' '.join(nets)))
        self.outputs = self.names('z')
        self.lines.append('word Z output %s %s' % (self.basis(), ' '.join(self.outputs)))
        if sequential:
            self.cycles = random.randint(0, 3)
            self.feed(fed)
        version = 2 if fed or self.feeds or len(self.towers) > 1 else random.randint(1, 2)
        self.lines.insert(0, 'gfsig %d' % version)

    def feed(self, fed):
        random = self.random
        self.fed_nets = ['d%d' % i for i in range(random.randint(1, 2))] if fed or random.random() < 0.3 else []
        for net in self.fed_nets:
            for cycle in sorted(random.sample(range(5), random.randint(1, 4))):
                bits = ['%s[%d]' % (w, i) for w in fed for i in range(self.k)]
                self.feeds.append('feed %s %d %s' % (net, cycle, random.choice(bits + ['0', '1'])))
        self.lines += self.feeds

    def names(self, letter):
        return ['%s[%d]' % (letter, i) if self.vectors else '%s%d' % (letter, i) for i in range(self.k)]

    def signature(self):
        return '\n'.join(self.lines) + '\n'

    def specification(self):
        random = self.random
        words = [l.split()[1] for l in self.lines if l.startswith('word') and ' output ' not in l]
        terms = []
        for _ in range(random.randint(1, 3)):
            factors = ['0x%x' % random.randrange(self.field.size)] if random.random() < 0.5 or not words else []
            for w in random.sample(words, random.randint(0 if factors else 1, len(words))):
                factors.append(w + random.choice(['', '', '^2', '^3', '^%d' % random.randrange(40)]))
            terms.append('*'.join(factors))
        return 'Z = ' + ' + '.join(terms) + '\n'


class Design:
    """A random net: gates over earlier nets, and latches."""

    def __init__(self, case, widest=4):
        random = self.random = case.random
        self.case = case
        self.inputs = case.free + case.fed_nets
        self.latches = [(out, random.choice('0123')) for out in case.states]
        if case.states or 'cycles' in case.features and random.random() < 0.3:
            self.latches += [('q%d' % i, random.choice('01')) for i in range(random.randint(0, 2))]
        known = self.inputs + [l[0] for l in self.latches]
        self.gates = []
        inner = ['t%d' % i for i in range(random.randint(0, 4))]
        kept = [z for z in case.outputs]
        for out in inner + kept:
            wide = min(random.choice([0, 1, 2, 2, 2, 3, widest]), len(known))
            self.gates.append((out, random.sample(known, wide) if random.random() < 0.9 else
                               [random.choice(known) for _ in range(wide)], random.getrandbits(1 << wide)))
            known = known + [out]
        self.latches = [(random.choice(known), out, start) for out, start in self.latches]

    def map(self):
        """Gives each gate by NANDs and inverters, as a mapper would, and some latches a reset or an enable."""
        random, old, self.gates = self.random, self.gates, []
        for out, inputs, table in old:
            self.gates.append((out, [self.of_nands(inputs, table)], 2))
        for i, (following, out, start) in enumerate(self.latches):
            if self.inputs and random.random() < 0.5:
                control = random.choice(self.case.fed_nets or self.inputs)
                held = random.choice([([control, following], 8), ([control, following], 4), ([control, following, out], 0xd8)])
                self.latches[i] = self.of_nands(*held), out, start

    def added(self, inputs, table):
        self.gates.append(('m%d' % len(self.gates), inputs, table))
        return self.gates[-1][0]

    def of_nands(self, inputs, table):
        """The net of a table, by Shannon's expansion; a constant is a gate of its own."""
        if not inputs:
            return self.added([], table & 1)
        half = 1 << (len(inputs) - 1)
        low, high = table & ((1 << half) - 1), table >> half
        if low == high and self.random.random() < 0.8:
            return self.of_nands(inputs[:-1], low)
        x = inputs[-1]
        opposite = self.added(*self.random.choice([([x], 1), ([x, x], 7)]))
        f, g = self.of_nands(inputs[:-1], low), self.of_nands(inputs[:-1], high)
        return self.added([self.added([opposite, f], 7), self.added([x, g], 7)], 7)

    def shuffled(self):
        gates = list(self.gates)
        if self.random.random() < 0.5:
            self.random.shuffle(gates)
        return gates

    def blif(self):
        random = self.random
        lines = ['.model m', '.inputs ' + ' '.join(self.inputs), '.outputs ' + ' '.join(self.case.outputs)]
        for following, out, start in self.latches:
            kind = random.choice(['', ' re clk'])
            lines.append('.latch %s %s%s %s' % (following, out, kind, start))
        for out, inputs, table in self.shuffled():
            lines.append('.names ' + ' '.join(inputs + [out]))
            lines += self.rows(len(inputs), table)
        return '\n'.join(lines + ['.end']) + '\n'

    def rows(self, wide, table):
        value = self.random.randint(0, 1)
        indexes = [i for i in range(1 << wide) if (table >> i) & 1 == value]
        if not indexes:
            # a cover without rows is 0
            value = 1 - value
            indexes = [i for i in range(1 << wide) if (table >> i) & 1 == value] if value else []
            if value == 0:
                indexes = list(range(1 << wide)) if table == 0 else []
        cells = [''.join(str((i >> p) & 1) for p in range(wide)) for i in indexes]
        cells = self.merged(cells)
        return [(c + ' ' + str(value)).strip() for c in cells]

    def merged(self, cells):
        """Now and then two rows that differ in one place become one with a dash."""
        random = self.random
        for _ in range(random.randint(0, 3)):
            pairs = [(a, b) for a in cells for b in cells if sum(x != y for x, y in zip(a, b)) == 1 and '-' not in
                     [y for x, y in zip(a, b) if x != y] + [x for x, y in zip(a, b) if x != y]]
            if not pairs:
                break
            a, b = random.choice(pairs)
            made = ''.join('-' if x != y else x for x, y in zip(a, b))
            cells = [c for c in cells if c not in (a, b)] + [made]
        return cells

    def expression(self, inputs, table, depth=0):
        """Verilog whose value is the table's bit: Shannon's expansion, or a sum of products."""
        random = self.random
        if not inputs:
            return random.choice(["1'b%d", "1'h%d", "1'd%d"]) % (table & 1)
        half = 1 << (len(inputs) - 1)
        low, high = table & ((1 << half) - 1), table >> half
        x, rest = inputs[-1], inputs[:-1]
        if low == high and random.random() < 0.7:
            return self.expression(rest, low, depth)
        f, g = self.expression(rest, low, depth + 1), self.expression(rest, high, depth + 1)
        if random.random() < 0.5:
            return '(~%s & %s | %s & %s)' % (x, f, x, g)
        return '(%s & (%s %s %s) ^ %s)' % (x, f, random.choice(['^']), g, f)

    def verilog(self):
        random, case = self.random, self.case
        declared, lines = [], []
        groups = {}
        for name in self.inputs + case.outputs:
            groups.setdefault(name.split('[')[0], []).append(name)
        for base, names in groups.items():
            way = 'output' if names[0] in case.outputs else 'input'
            bounds = random.choice(['[%d:0]', '[0:%d]']) % (len(names) - 1) + ' ' if '[' in names[0] else ''
            declared.append((way, bounds, base))
        if random.random() < 0.5:
            lines.append('module m(%s);' % ', '.join('%s %s%s' % d for d in declared))
        else:
            lines += ['module m(%s);' % ', '.join(d[2] for d in declared)] + ['  %s %s%s;' % d for d in declared]
        wires = [out for out, _, _ in self.gates if out not in case.outputs]
        lines += ['  wire %s;' % ', '.join(wires)] if wires else []
        for out, inputs, table in self.shuffled():
            lines.append('  ' + self.statement(out, inputs, table))
        return '\n'.join(lines + ['endmodule']) + '\n'

    def statement(self, out, inputs, table):
        kinds = {(2, 8): 'and', (2, 14): 'or', (2, 6): 'xor', (2, 7): 'nand', (2, 1): 'nor', (2, 9): 'xnor', (1, 1): 'not', (1, 2): 'buf'}
        kind = kinds.get((len(inputs), table))
        if kind and self.random.random() < 0.7:
            return '%s %s(%s);' % (kind, self.random.choice(['', 'u1']), ', '.join([out] + inputs))
        return 'assign %s = %s;' % (out, self.expression(inputs, table))

    def aiger(self):
        self.literals, self.ands = {}, []
        self.next = 2
        for name in self.inputs + [l[1] for l in self.latches]:
            self.literals[name] = self.fresh()
        inner = {}
        for out, inputs, table in self.gates:
            self.literals[out] = self.of_table([self.literals[n] for n in inputs], table)
        lines = ['%d' % self.literals[n] for n in self.inputs]
        for following, out, start in self.latches:
            own = self.literals[out]
            tail = {'0': self.random.choice(['', ' 0']), '1': ' 1'}.get(start, ' %d' % own)
            lines.append('%d %d%s' % (own, self.literals[following], tail))
        lines += ['%d' % self.literals[n] for n in self.case.outputs]
        lines += ['%d %d %d' % a for a in self.ands]
        for letter, names in (('i', self.inputs), ('l', [l[1] for l in self.latches]), ('o', self.case.outputs)):
            lines += ['%s%d %s' % (letter, p, n) for p, n in enumerate(names)]
        head = 'aag %d %d %d %d %d' % (self.next // 2 - 1, len(self.inputs), len(self.latches), len(self.case.outputs), len(self.ands))
        return '\n'.join([head] + lines) + '\n'

    def fresh(self):
        self.next += 2
        return self.next - 2

    def conjunction(self, a, b):
        out = self.fresh()
        self.ands.append((out, a, b))
        return out

    def of_table(self, literals, table):
        if not literals:
            return table & 1
        half = 1 << (len(literals) - 1)
        low, high = table & ((1 << half) - 1), table >> half
        if low == high:
            return self.of_table(literals[:-1], low)
        x = literals[-1]
        f, g = self.of_table(literals[:-1], low), self.of_table(literals[:-1], high)
        return self.conjunction(self.conjunction(x ^ 1, f) ^ 1, self.conjunction(x, g) ^ 1) ^ 1


def changed(random, text):
    """A text with one byte, word or line taken out, doubled, or put in another's place."""
    choice = random.random()
    if choice < 0.3 and text:
        i = random.randrange(len(text))
        return text[:i] + random.choice(['', text[i] * 2, random.choice('01ab[]=;,.#\\ \n~^&|()xZ9`_')]) + text[i + 1:]
    lines = text.split('\n')
    i = random.randrange(len(lines))
    if choice < 0.6:
        words = lines[i].split(' ')
        j = random.randrange(len(words))
        others = text.split() or ['x']
        words[j:j + 1] = random.choice([[], [words[j]] * 2, [random.choice(others)], [words[j], random.choice(others)]])
        lines[i] = ' '.join(words)
    else:
        lines[i:i + 1] = random.choice([[], [lines[i]] * 2, [random.choice(lines)], [lines[i], random.choice(lines)]])
    return '\n'.join(lines)
