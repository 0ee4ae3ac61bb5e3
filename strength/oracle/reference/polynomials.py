"""Polynomials over a field as dictionaries, their text, and the stages on the way from a net to its polynomial.

In words a monomial is a pair: a tuple of exponents, one a word, and a frozen set of ranks of bits.
"""
from .fields import Fault, bits_of, dual_of
from .reading import Wrong


def added(total, monomial, coefficient):
    c = total.get(monomial, 0) ^ coefficient
    if c:
        total[monomial] = c
    else:
        total.pop(monomial, None)


def raised(field, e, f):
    """The exponent of a product of two powers: 2^k - 1 stays, 2^k becomes 1."""
    e += f
    return e if e < field.size else (e - 1) % (field.size - 1) + 1


def univariate_product(field, p, q):
    product = {}
    for e, a in p.items():
        for f, b in q.items():
            added(product, raised(field, e, f), field.mul(a, b))
    return product


def interpolated(field, value):
    """The polynomial of a function of one element, by its values: coefficient by coefficient."""
    last = field.size - 1
    values = [value(x) for x in range(field.size)]
    found = {}
    for e in range(field.size):
        c = 0
        for x, v in enumerate(values):
            if e == 0:
                c ^= v if x == 0 else 0
            elif e == last:
                c ^= v
            else:
                c ^= field.mul(v, field.power(x, last - e)) if last > e else v
        if c:
            found[e] = c
    return found


def falling(monomial):
    """Rises where the list of exponents falls: of two monomials, the one that has the first bit in which they differ is first."""
    exponents, bits = monomial
    return [-e for e in exponents], sorted(bits) + [float('inf')]


class Variables:
    """The order of variables: words, their bits, then all other nets by number; and how they are printed."""

    def __init__(self, flat):
        self.words, k = flat.words, flat.field.k
        nets = [n for w in flat.words for n in flat.nets[w.name]]
        self.rank = {n: r for r, n in enumerate(nets)}
        rest = [n for n in range(len(flat.net.labels)) if n not in self.rank]
        self.rank.update({n: len(nets) + i for i, n in enumerate(rest)})
        self.texts = ['%s[%d]' % (w.name.decode(), i) for w in flat.words for i in range(k)]
        self.texts += ['@%d' % n for n in rest]
        self.others = set(rest)

    def of_net(self, net):
        """The rank of a net that is written by its number."""
        if net not in self.others:
            raise Wrong('net')
        return self.rank[net]

    def text(self, polynomial):
        ordered = sorted(polynomial, key=falling)
        return ' + '.join(self.term(m, polynomial[m]) for m in ordered) or '0'

    def term(self, monomial, c):
        exponents, bits = monomial
        parts = [w.name.decode() + ('^%d' % e if e > 1 else '') for w, e in zip(self.words, exponents) if e]
        parts += [self.texts[r] for r in sorted(bits)]
        return '*'.join(parts if c == 1 and parts else ['0x%x' % c] + parts)


def words_text(words, polynomial):
    """The text of a polynomial in words alone, from exponents to coefficients."""
    parts = []
    for exponents in sorted(polynomial, reverse=True):
        c = polynomial[exponents]
        named = [w.name.decode() + ('^%d' % e if e > 1 else '') for w, e in zip(words, exponents) if e]
        parts.append('*'.join(named if c == 1 and named else ['0x%x' % c] + named))
    return ' + '.join(parts) or '0'


class Bounded:
    """Holds each stage against the bound."""

    def __init__(self, bound, prefix=''):
        self.bound, self.prefix = bound, prefix

    def check(self, stage, count):
        if count > self.bound:
            raise Fault(3, '%s%s has %d terms, bound %d' % (self.prefix, stage, count, self.bound))


class Cut:
    """A polynomial in sets of nets; its terms by the gate in them that is eliminated first."""

    def __init__(self, gates):
        self.turn, self.parts, self.count = {g.out: t for t, g in enumerate(gates)}, {}, 0

    def add(self, monomial, c):
        turn = min((self.turn[n] for n in monomial if n in self.turn), default=None)
        part = self.parts.setdefault(turn, {})
        self.count -= len(part)
        added(part, monomial, c)
        self.count += len(part)

    def take(self, turn):
        part = self.parts.pop(turn, {})
        self.count -= len(part)
        return part


def cuts(flat, bounded, recorded=lambda net, with_it: None):
    """The last cut: a polynomial in sets of nets. Each net that stands in it when its gate is met is told, with its terms."""
    gates = [flat.net.gates[p] for p in flat.net.elimination()]
    cut = Cut(gates)
    for beta, n in zip(flat.output.elements, flat.nets[flat.output.name]):
        cut.add(frozenset([n]), beta)
    bounded.check('cut 0', cut.count)
    for t, gate in enumerate(gates):
        with_it = cut.take(t)
        if with_it:
            recorded(gate.out, with_it)
        for s in table_sets(gate) if with_it else ():
            for m, c in with_it.items():
                cut.add((m - {gate.out}) | s, c)
        bounded.check('cut %d' % (t + 1), cut.count)
    return cut.take(None)


def table_sets(gate):
    """The sets of inputs whose products add up, without carry, to the gate's bit."""
    odd = {}
    for index in range(1 << len(gate.inputs)):
        # the coefficient of this set of places is the sum of the bits of its subsets
        c, sub = 0, index
        while True:
            c ^= (gate.table >> sub) & 1
            if sub == 0:
                break
            sub = (sub - 1) & index
        if c:
            s = frozenset(n for i, n in enumerate(gate.inputs) if (index >> i) & 1)
            odd[s] = odd.get(s, 0) ^ 1
    return [s for s, c in odd.items() if c]


FORMS = {}


def linear_form(field, elements, place):
    """Bit `place` of an element as a polynomial of the element."""
    key = (id(field), tuple(elements), place)
    if key not in FORMS and field.k <= 8:
        FORMS[key] = interpolated(field, lambda x: bits_of(elements, x)[place])
    if key not in FORMS:
        for i, dual in enumerate(dual_of(field, elements)):
            powers = [dual]
            while len(powers) < field.k:
                powers.append(field.mul(powers[-1], powers[-1]))
            FORMS[key[:2] + (i,)] = {1 << j: c for j, c in enumerate(powers)}
    return FORMS[key]


def in_words(flat, last, bounded, recorded=lambda w, rank, multiplier: None):
    """The polynomial in words, by the stages of each word in turn. Each bit is told with what it is multiplied by."""
    rank = Variables(flat).rank
    zero = (0,) * len(flat.words)
    p = {(zero, frozenset(rank[n] for n in m)): c for m, c in last.items()}
    for w in range(len(flat.words)):
        p = one_word(flat, p, w, bounded, recorded)
    return p


def one_word(flat, p, w, bounded, recorded):
    field, word = flat.field, flat.words[w]
    first = field.k * w
    ordered = sorted(p, key=falling)
    total = {}
    for s, m in enumerate(ordered, 1):
        product = {0: p[m]}
        own = sorted(r for r in m[1] if first <= r < first + field.k)
        for j, r in enumerate(own, 1):
            rest = (m[1] - set(own)) | set(own[j:])
            recorded(w, r, {(m[0][:w] + (e,) + m[0][w + 1:], rest): c for e, c in product.items()})
            product = univariate_product(field, product, linear_form(field, word.elements, r - first))
            bounded.check('word %s term %d bit %d' % (word.name.decode(), s, j), len(product))
        for e, c in product.items():
            added(total, (m[0][:w] + (e,) + m[0][w + 1:], m[1] - set(own)), c)
        bounded.check('word %s sum %d' % (word.name.decode(), s), len(total))
    return total


def product_by(field, p, q, joined):
    """The product of two polynomials, by what two monomials multiply to."""
    product = {}
    for s, a in p.items():
        for t, b in q.items():
            added(product, joined(s, t), field.mul(a, b))
    return product


def bits_product(field, p, q):
    return product_by(field, p, q, frozenset.union)


def expanded(flat, spec, bounded):
    """The specification as a polynomial in sets of ranks of the words' bits, by its stages."""
    field, total = flat.field, {}
    for s, (coefficient, pairs) in enumerate(spec.terms, 1):
        product, factor = ({frozenset(): coefficient} if coefficient else {}), 0
        for w, exponent in pairs:
            for j in range(exponent.bit_length()):
                if (exponent >> j) & 1:
                    factor += 1
                    form = {frozenset([field.k * w + i]): field.power(beta, 1 << (j % field.k))
                            for i, beta in enumerate(flat.words[w].elements)}
                    product = bits_product(field, product, form)
                    bounded.check('specification term %d factor %d' % (s, factor), len(product))
        for m, c in product.items():
            added(total, m, c)
        bounded.check('specification sum %d' % s, len(total))
    return total
