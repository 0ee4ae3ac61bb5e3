"""Certificates: their text in both versions, their running sums, and those that a reduction leaves behind."""
import re

from .fields import Fault
from .polynomials import Bounded, Variables, added, cuts, in_words, linear_form, raised, table_sets
from .reading import Wrong, read_polynomial
from .signature import lines_of

FAULTS = {'syntax': (50, 'certificate line %d'), 'net': (51, 'no such net at line %d'), 'bit': (52, 'no such bit at line %d'),
          'gate': (53, 'no gate at line %d'), 'let': (55, 'no such let at line %d')}
NAME = rb'[A-Za-z][A-Za-z0-9_]{0,254}'
BLANK = rb'[ \t]*'


class Certificate:
    """A claim and pairs of a generator and a multiplier; a generator is ('net', n) or ('bit', word, place)."""

    def __init__(self, claim):
        self.claim, self.pairs = claim, []


class Reader:
    """Reads a text line by line; `met` is called with the number of each line that moves the running sum."""

    def __init__(self, data, flat, met=lambda line, certificate: None):
        self.flat, self.variables, self.met = flat, Variables(flat), met
        self.lines, self.shared = lines_of(data), []
        self.version = self.line(1, self.head)
        self.certificate = Certificate(self.line(2, self.claim))
        met(2, self.certificate)
        number = 3
        while self.line(number, self.entry):
            number += 1
        if len(self.lines) > number:
            raise self.fault('syntax', number + 1)

    def fault(self, kind, number):
        return Fault(FAULTS[kind][0], FAULTS[kind][1] % number)

    def line(self, number, read):
        if number > len(self.lines):
            raise Fault(54, 'no end line')
        self.number = number
        try:
            return read(self.lines[number - 1])
        except Wrong as wrong:
            raise self.fault(str(wrong), number)

    def taken(self, pattern, text):
        """What a pattern finds behind blanks at the beginning, and the rest of the text."""
        found = re.match(BLANK + b'(' + pattern + b')', text)
        if not found:
            raise Wrong('syntax')
        return found[1], text[found.end():]

    def word(self, wanted, text):
        word, rest = self.taken(rb'[A-Za-z0-9_]+', text)
        if word not in wanted:
            raise Wrong('syntax')
        return word, rest

    def decimal(self, text):
        digits, rest = self.taken(rb'(?!0x[0-9a-fA-F])[0-9]+', text)
        return int(digits), rest

    def head(self, line):
        rest = self.word([b'gfcert'], line)[1]
        digits, rest = self.taken(rb'[0-9]+', rest)
        if digits not in (b'1', b'2') or rest.strip(b' \t'):
            raise Wrong('syntax')
        return int(digits)

    def claim(self, line):
        rest = self.word([b'claim'], line)[1]
        rest = self.word([self.flat.output.name], rest)[1]
        return read_polynomial(self.taken(rb'=', rest)[1], self.flat.field, self.variables, words_alone=True)

    def entry(self, line):
        """Whether more lines follow this one."""
        word, rest = self.word([b'net', b'bit', b'end'] + [b'let'] * (self.version == 2), line)
        if word == b'end':
            if rest.strip(b' \t'):
                raise Wrong('syntax')
            return False
        if word == b'let':
            number, rest = self.decimal(rest)
            if number != len(self.shared):
                raise Wrong('syntax')
            polynomial = self.polynomial(self.taken(rb':', rest)[1])
            self.shared.append(polynomial)
            return True
        generator, rest = self.net(rest) if word == b'net' else self.bit(rest)
        self.certificate.pairs.append((generator, self.multiplier(self.taken(rb':', rest)[1])))
        self.met(self.number, self.certificate)
        return True

    def polynomial(self, text):
        return read_polynomial(text, self.flat.field, self.variables)

    def net(self, rest):
        number, rest = self.decimal(rest)
        if number >= len(self.flat.net.labels):
            raise Wrong('net')
        if number not in self.flat.net.driver:
            raise Wrong('gate')
        return ('net', number), rest

    def bit(self, rest):
        found, rest = self.taken(NAME + rb'\[[0-9]+\]', rest)
        name, place = found[:-1].split(b'[')
        names = [w.name for w in self.variables.words]
        if name not in names or int(place) >= self.flat.field.k:
            raise Wrong('bit')
        return ('bit', names.index(name), int(place)), rest

    def multiplier(self, text):
        found = re.match(BLANK + rb'#([0-9]+)' + BLANK + rb'\Z', text)
        if self.version == 1 or not found:
            return self.polynomial(text)
        if int(found[1]) >= len(self.shared):
            raise Wrong('let')
        return self.shared[int(found[1])]


def generator_of(flat, variables, generator):
    """The net and what its gate makes, or the bit and its linear form, as a polynomial."""
    zero, total = (0,) * len(variables.words), {}
    if generator[0] == 'net':
        gate = flat.net.gates[flat.net.driver[generator[1]]]
        added(total, (zero, frozenset([variables.rank[generator[1]]])), 1)
        for nets in table_sets(gate):
            added(total, (zero, frozenset(variables.rank[n] for n in nets)), 1)
        return total
    _, w, place = generator
    added(total, (zero, frozenset([flat.field.k * w + place])), 1)
    for e, c in linear_form(flat.field, variables.words[w].elements, place).items():
        added(total, (zero[:w] + (e,) + zero[w + 1:], frozenset()), c)
    return total


def product_into(total, field, p, q):
    for (e, s), a in p.items():
        for (f, t), b in q.items():
            added(total, (tuple(raised(field, x, y) for x, y in zip(e, f)), s | t), field.mul(a, b))


def begun(flat, variables, claim):
    total, zero = dict(claim), (0,) * len(variables.words)
    for beta, n in zip(flat.output.elements, flat.nets[flat.output.name]):
        added(total, (zero, frozenset([variables.rank[n]])), beta)
    return total


def checked(data, flat, bound):
    """The claim and the number of terms that remain at the end."""
    variables, sums = Variables(flat), []

    def met(line, certificate):
        if not sums:
            sums.append(begun(flat, variables, certificate.claim))
        else:
            generator, multiplier = certificate.pairs[-1]
            product_into(sums[0], flat.field, generator_of(flat, variables, generator), multiplier)
        bound.check('certificate line %d' % line, len(sums[0]))

    certificate = Reader(data, flat, met).certificate
    return certificate.claim, len(sums[0])


def pairs_of_cuts(flat, bounded):
    """The last cut, and for each gate whose net stands in the cut before it, the terms with it, without it."""
    variables, pairs = Variables(flat), []
    zero = (0,) * len(flat.words)

    def recorded(net, with_it):
        pairs.append((('net', net), {(zero, frozenset(variables.rank[n] for n in m - {net})): c for m, c in with_it.items()}))
    return cuts(flat, bounded, recorded), pairs


def certified(flat, bound):
    """The certificate of the polynomial in words."""
    last, pairs = pairs_of_cuts(flat, Bounded(bound))

    def recorded(w, rank, multiplier):
        pairs.append((('bit', w, rank - flat.field.k * w), multiplier))
    made = Certificate(in_words(flat, last, Bounded(bound), recorded))
    made.pairs = pairs
    return made


def written(flat, certificate):
    """The text of version 2: a multiplier of two pairs or more stands in a line of its own."""
    variables, texts = Variables(flat), []
    for generator, multiplier in certificate.pairs:
        name = 'net %d' % generator[1] if generator[0] == 'net' else 'bit %s[%d]' % (flat.words[generator[1]].name.decode(), generator[2])
        texts.append((name, variables.text(multiplier)))
    often, number = {}, {}
    for _, text in texts:
        often[text] = often.get(text, 0) + 1
    lines = ['gfcert 2', 'claim %s = %s' % (flat.output.name.decode(), variables.text(certificate.claim))]
    for name, text in texts:
        if often[text] > 1 and text not in number:
            number[text] = len(number)
            lines.append('let %d : %s' % (number[text], text))
        lines.append('%s : %s' % (name, '#%d' % number[text] if text in number else text))
    return '\n'.join(lines + ['end']) + '\n'
