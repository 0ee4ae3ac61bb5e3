"""Random tops of blocks for `compose`: a signature with blocks, and a netlist whose top wires instances of them."""
from .fields import field_of, independent
from .makers import make
from .signature import Signature

FIELDS = [(3, []), (7, []), (7, []), (7, []), (0xb, []), (0x13, []), (7, [[2, 1]])]


def nets(letter, k):
    return ['%s%d' % (letter, i) for i in range(k)]


class Block:
    """A model with up to two input words: random tables of its inputs, their sum or product, or two instances of another block."""

    def __init__(self, random, k, name, parts, modulus=None):
        self.random, self.k, self.name = random, k, name
        self.words = ['A', 'B'][:random.choice([0, 1, 1, 2, 2, 2, 2])]
        self.ports = [n for w in self.words for n in nets(w.lower(), k)]
        inner = [p for p in parts if p.words]
        if len(self.words) == 2 and random.random() < 0.5:
            self.lines = self.product(modulus) if modulus and random.random() < 0.5 else self.sums()
        elif inner and self.words and random.random() < 0.2:
            self.lines = self.nested(random.choice(inner))
        else:
            self.lines = self.gates()

    def head(self):
        extra = ['c'] if self.random.random() < 0.1 else []
        return ['.model ' + self.name, '.inputs ' + ' '.join(self.ports), '.outputs ' + ' '.join(nets('z', self.k) + extra)], extra

    def gates(self):
        random = self.random
        lines, extra = self.head()
        for out in nets('z', self.k) + extra:
            inputs = random.sample(self.ports, min(len(self.ports), random.randint(0, 3)))
            table = random.getrandbits(1 << len(inputs))
            lines.append('.names ' + ' '.join(inputs + [out]))
            lines += [(''.join(str((r >> j) & 1) for j in range(len(inputs))) + ' 1').strip() for r in range(1 << len(inputs)) if (table >> r) & 1]
        if random.random() < 0.02:
            lines.append('.latch z0 q 0')
        return lines + ['.end']

    def sums(self):
        """The sum of two words in one basis: small by itself, and large where sums are multiplied."""
        pairs = zip(nets('a', self.k), nets('b', self.k), nets('z', self.k))
        lines = [l for a, b, z in pairs for l in ('.names %s %s %s' % (a, b, z), '10 1', '01 1')]
        return ['.model ' + self.name, '.inputs ' + ' '.join(self.ports), '.outputs ' + ' '.join(nets('z', self.k))] + lines + ['.end']

    def product(self, modulus):
        """A multiplier in the polynomial basis."""
        roles = (('A', 'input'), ('B', 'input'), ('Z', 'output'))
        words = ['word %s %s poly %s' % (w, role, ' '.join(nets(w.lower(), self.k))) for w, role in roles]
        text = make('mastrovito', Signature('\n'.join(['gfsig 1', 'field 0x%x' % modulus] + words).encode())).text().decode()
        return ['.model ' + self.name] + text.split('\n')[1:-1]

    def nested(self, part):
        lines, extra = self.head()
        lines += ['.names %s %s' % (self.ports[0], n) for n in extra]
        lines.append(instance(part, [nets(self.random.choice(self.words).lower(), self.k) for _ in part.words], nets('t', self.k)))
        lines.append(instance(part, [nets('t', self.k) for _ in part.words], nets('z', self.k)))
        return lines + ['.end']


def instance(block, feeds, out):
    pairs = [pair for word, feed in zip(block.words, feeds) for pair in zip(nets(word.lower(), block.k), feed)]
    pairs += zip(nets('z', block.k), out)
    return '.subckt %s %s' % (block.name, ' '.join('%s=%s' % pair for pair in pairs))


class Hierarchy:
    """A top of instances of up to three blocks, now and then with one thing wrong."""

    def __init__(self, random):
        self.random = random
        self.modulus, self.towers = random.choice(FIELDS)
        self.field = field_of(self.modulus, self.towers[0] if self.towers else [], [])
        self.k = self.field.k
        self.usual = self.basis()
        multiplied = self.modulus if self.usual == 'poly' and not self.towers else None
        self.blocks = []
        for i in range(random.randint(1, 3)):
            self.blocks.append(Block(random, self.k, 'blk%d' % i, self.blocks, multiplied))
        self.words = ['A', 'B', 'C', 'D'][:random.randint(1, (4, 4, 3, 2)[self.k - 1])]

    def basis(self):
        random = self.random
        while True:
            elements = [random.randrange(1, self.field.size) for _ in range(self.k)]
            if random.random() < 0.5:
                return 'poly'
            if independent(elements):
                return 'list:' + ','.join('0x%x' % e for e in elements)

    def texts(self):
        """The texts of the signature and the netlist."""
        random, k = self.random, self.k
        lines = self.instances()
        if random.random() < 0.3:
            random.shuffle(lines)
        if random.random() < 0.02:
            lines.insert(random.randrange(len(lines) + 1), random.choice(['.names a0 other\n1 1', '.latch a0 other 0']))
        head = ['.model top', '.inputs ' + ' '.join(n for w in self.words for n in nets(w.lower(), k)), '.outputs ' + ' '.join(nets('z', k))]
        models = [l for b in self.blocks for l in b.lines]
        return self.signature(), '\n'.join(head + lines + ['.end'] + models) + '\n'

    def instances(self):
        random, k = self.random, self.k
        count = random.randint(1, 6)
        outs = [nets('z' if i == count - 1 else 't%d_' % i, k) for i in range(count)]
        known, lines = [nets(w.lower(), k) for w in self.words], []
        for out in outs:
            block = random.choice(self.blocks)
            lines.append(self.wired(block, known if random.random() < 0.97 else known + outs, out))
            known = known + [out]
        return lines

    def wired(self, block, pool, out):
        """An instance whose words are fed out of the pool."""
        random = self.random
        feeds = [random.choice(pool[-3:] if random.random() < 0.6 else pool) for _ in block.words]
        feeds = [feed if random.random() < 0.98 else feed[::-1] for feed in feeds]
        line = instance(block, feeds, out)
        return line if random.random() < 0.98 else line.rsplit(' ', 1)[0]

    def signature(self):
        random = self.random
        lines = ['gfsig %d' % random.randint(1, 2), 'field 0x%x' % self.modulus] + ['tower ' + ' '.join('0x%x' % c for c in t) for t in self.towers]
        blocks = [b for b in self.blocks if random.random() < 0.98]
        random.shuffle(blocks)
        for model, words in [(None, self.words)] + [(b.name, b.words) for b in blocks]:
            lines += ['block ' + model] if model else []
            own = [self.word(w, 'input', nets(w.lower(), self.k)) for w in words]
            own.insert(len(own) if random.random() < 0.8 else 0, self.word('Z', 'output', nets('z', self.k)))
            lines += own
        return '\n'.join(lines) + '\n'

    def word(self, name, role, names):
        basis = self.usual if self.random.random() < 0.97 else self.basis()
        return 'word %s %s %s %s' % (name, role, basis, ' '.join(names))


class Sums(Hierarchy):
    """A top of sums and products of up to eight words, over few elements: its blocks are small, and its polynomials are not."""

    def __init__(self, random):
        self.random, self.usual, self.towers = random, 'poly', []
        self.modulus = random.choice([3, 3, 7])
        self.k = self.modulus.bit_length() - 1
        self.words = list('ABCDEFGH')[:random.randint(3, 8 if self.k == 1 else 4)]
        self.blocks = [self.block('add', 'sums'), self.block('mul', 'product')]

    def block(self, name, kind):
        block = Block.__new__(Block)
        block.random, block.k, block.name, block.words = self.random, self.k, name, ['A', 'B']
        block.ports = nets('a', self.k) + nets('b', self.k)
        block.lines = block.sums() if kind == 'sums' else block.product(self.modulus)
        return block

    def instances(self):
        """A tree of sums and products over all words, some of which stand twice."""
        random = self.random
        left = [nets(w.lower(), self.k) for w in self.words + random.sample(self.words, random.randint(0, 2))]
        lines, number = [], 0
        while len(left) > 1:
            random.shuffle(left)
            first, second, number = left.pop(), left.pop(), number + 1
            left.append(nets('t%d_' % number if left else 'z', self.k))
            lines.append(instance(self.blocks[random.random() < 0.4], [first, second], left[-1]))
        return lines

    def basis(self):
        return 'poly'


def compose(random):
    """The words and the files of a call."""
    hierarchy = (Sums if random.random() < 0.3 else Hierarchy)(random)
    signature, netlist = hierarchy.texts()
    bound = random.randint(2 * hierarchy.k, 12) if isinstance(hierarchy, Sums) else random.randint(1, 32)
    words = ['compose', 'sig', 'net'] + (['--terms', str(bound)] if random.random() < 0.5 else [])
    return words, {'sig': signature, 'net': netlist}
