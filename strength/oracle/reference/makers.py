"""The netlists that `make` prints: their gates and latches in order, and their text in BLIF."""
from .fields import Fault, bits_of, remainder

XOR, AND, BUFFER = 0b0110, 0b1000, 0b10
KINDS = ('mastrovito', 'montgomery', 'composite', 'normal', 'digit', 'adder', 'squarer')


class Made:
    """Gates and latches over names; the nets of a signature are its ports."""

    def __init__(self, words, fed=()):
        self.inputs = [n for w in words if w.role == 'input' for n in w.nets] + list(fed)
        self.outputs = [n for w in words if w.role == 'output' for n in w.nets]
        known = [n for w in words for n in w.nets] + list(fed)
        self.prefix = b'w'
        while any(n.startswith(self.prefix) for n in known):
            self.prefix += b'w'
        self.count, self.gates, self.latches = 0, [], []

    def inner(self):
        self.count += 1
        return self.prefix + b'%d' % (self.count - 1)

    def gate(self, inputs, table, out=None):
        """Drives a net of the signature, or the next inner one."""
        if out is None:
            out = self.inner()
        self.gates.append((out, list(inputs), table))
        return out

    def chain(self, nets, out=None):
        """The exclusive or of the nets, from the left."""
        if not nets:
            return self.gate([], 0, out)
        if len(nets) == 1:
            return self.gate(nets, BUFFER, out)
        total = nets[0]
        for net in nets[1:-1]:
            total = self.gate([total, net], XOR)
        return self.gate([total, nets[-1]], XOR, out)

    def turn(self, position, index):
        out, inputs, table = self.gates[position]
        self.gates[position] = (out, inputs, table ^ (1 << index))

    def text(self):
        lines = [b'.model make'] + ([b'.inputs ' + b' '.join(self.inputs)] if self.inputs else [])
        lines.append(b' '.join([b'.outputs'] + self.outputs))
        lines += [b'.latch %s %s %d' % (following, out, 3 if start is None else start) for following, out, start in self.latches]
        for out, inputs, table in self.gates:
            lines.append(b' '.join([b'.names'] + inputs + [out]))
            lines += [b' '.join(row_of(index, len(inputs))) for index in range(1 << len(inputs)) if (table >> index) & 1]
        return b'\n'.join(lines + [b'.end']) + b'\n'


def row_of(index, wide):
    """The characters of an index of a table, bit 0 first, where there are inputs, and the output 1."""
    cells = ''.join(str((index >> i) & 1) for i in range(wide)).encode()
    return [cells, b'1'] if wide else [b'1']


def has_form(kind, signature):
    """Whether the kind can be made for this signature."""
    words = signature.top.words
    if (kind == 'digit') != bool(signature.feeds) or signature.blocks or len([w for w in words if w.role == 'output']) != 1:
        return False
    nets = [n for w in words for n in w.nets] + (first_feeds(signature) if kind == 'digit' else [])
    if len(set(nets)) < len(nets) or any(len(n) > 128 for n in nets):
        return False
    return FORMS[kind](signature, [w.role for w in words if w.role != 'output'], [w.basis for w in words])


def first_feeds(signature):
    return [f.net for f in signature.feeds if f.cycle == 0]


def is_plain(bases):
    return all(b == ('poly',) for b in bases)


def is_digit(signature, roles, bases):
    words, k = signature.top.words, signature.field.k
    if signature.towers or [w.role for w in words] != ['fed', 'input', 'output'] or not is_plain(bases):
        return False
    nets = first_feeds(signature)
    size = len(nets)
    if not size or k % size or len(signature.feeds) != k:
        return False
    wanted = [(nets[e], t, words[0].name, k - size * (t + 1) + e) for t in range(k // size) for e in range(size)]
    return [(f.net, f.cycle, f.word, f.place) for f in signature.feeds] == wanted


FORMS = {
    'mastrovito': lambda s, roles, bases: not s.towers and roles == ['input', 'input'] and is_plain(bases),
    'montgomery': lambda s, roles, bases: not s.towers and s.modulus != 2 and roles == ['input', 'input'] and is_plain(bases),
    'composite': lambda s, roles, bases: len(s.towers) == 1 and roles == ['input', 'input'] and is_plain(bases),
    'normal': lambda s, roles, bases: roles == ['state', 'state'] and bases[0][0] == 'normal' and all(b == bases[0] for b in bases),
    'digit': is_digit,
    'adder': lambda s, roles, bases: roles == ['input', 'input'] and all(b == bases[0] for b in bases),
    'squarer': lambda s, roles, bases: not s.towers and roles == ['input'] and is_plain(bases),
}


def powers_of_x(modulus, count):
    """The powers of x as remainders by the modulus, from x^0."""
    return [remainder(1 << e, modulus) for e in range(count)]


def multiplied(made, modulus, a, b, outs):
    """The products of two bits, and the sums of those that reach each bit of the product."""
    k = modulus.bit_length() - 1
    powers = powers_of_x(modulus, 2 * k - 1)
    product = {(i, j): made.gate([a[i], b[j]], AND) for i in range(k) for j in range(k)}
    return [made.chain([product[i, j] for i in range(k) for j in range(k) if (powers[i + j] >> l) & 1], outs[l]) for l in range(k)]


def mastrovito(signature, made, a, b, z):
    multiplied(made, signature.modulus, a, b, z)


def montgomery(signature, made, a, b, z):
    k, sums = signature.field.k, None
    for i in range(k):
        products = [made.gate([a[i], b[j]], AND) for j in range(k)]
        sums = products if i == 0 else [made.gate([sums[j], products[j]], XOR) for j in range(k)]
        lowest = sums[0]
        sums = [made.gate([sums[j + 1], lowest], XOR) if (signature.modulus >> (j + 1)) & 1 else sums[j + 1] for j in range(k - 1)] + [lowest]
    for net, out in zip(sums, z):
        made.gate([net], BUFFER, out)


def composite(signature, made, a, b, z):
    over = signature.field.quotient
    base, m, n = over.base, over.m, over.n
    parts = {}
    for i in range(m):
        for j in range(m):
            parts[i, j] = multiplied(made, signature.modulus, a[n * i:n * (i + 1)], b[n * j:n * (j + 1)], [None] * n)
    sums = {(d, l): made.chain([parts[i, d - i][l] for i in range(m) if 0 <= d - i < m]) for d in range(2 * m - 1) for l in range(n)}
    # Y^d reduced, for d from m: the remainder is a list of coefficients
    reduced = {d: over.split(power_of_y(over, d)) for d in range(m, 2 * m - 1)}
    x = powers_of_x(signature.modulus, n)
    for e in range(m):
        for l in range(n):
            more = [sums[d, t] for d in range(m, 2 * m - 1) for t in range(n) if (base.product(reduced[d][e], x[t]) >> l) & 1]
            made.chain([sums[e, l]] + more, z[n * e + l])


def power_of_y(over, d):
    power = 1
    for _ in range(d):
        power = over.product(power, 1 << over.n)
    return power


def normal(signature, made, a, b, z):
    field, k, elements = signature.field, signature.field.k, signature.top.words[0].elements
    last = [made.gate([a[i], b[j]], AND) for i in range(k) for j in range(k) if bits_of(elements, field.mul(elements[i], elements[j]))[k - 1]]
    total = made.chain(last)
    for word in (a, b):
        made.latches += [(word[i - 1], word[i], None) for i in range(k)]
    made.latches += [(total if i == 0 else z[i - 1], z[i], 0) for i in range(k)]


def digit(signature, made, b, z):
    k, nets = signature.field.k, first_feeds(signature)
    powers = powers_of_x(signature.modulus, 2 * k)
    product = {(e, j): made.gate([d, b[j]], AND) for e, d in enumerate(nets) for j in range(k)}
    after = []
    for l in range(k):
        kept = [z[i] for i in range(k) if (powers[i + len(nets)] >> l) & 1]
        after.append(made.chain(kept + [product[e, j] for e in range(len(nets)) for j in range(k) if (powers[e + j] >> l) & 1]))
    made.latches += [(after[l], z[l], 0) for l in range(k)]


def adder(signature, made, a, b, z):
    for i in range(signature.field.k):
        made.gate([a[i], b[i]], XOR, z[i])


def squarer(signature, made, a, z):
    k = signature.field.k
    powers = powers_of_x(signature.modulus, 2 * k - 1)
    for l in range(k):
        made.chain([a[i] for i in range(k) if (powers[2 * i] >> l) & 1], z[l])


MAKERS = {'mastrovito': mastrovito, 'montgomery': montgomery, 'composite': composite, 'normal': normal, 'digit': digit,
          'adder': adder, 'squarer': squarer}


def make(kind, signature):
    if not has_form(kind, signature):
        raise Fault(43, 'the signature does not fit ' + kind)
    words = signature.top.words
    made = Made(words, first_feeds(signature) if kind == 'digit' else ())
    output = next(w for w in words if w.role == 'output')
    MAKERS[kind](signature, made, *[w.nets for w in words if w.nets and w is not output], output.nets)
    return made
