"""The text of polynomials, as certificates have it, token by token."""
import re

TOKEN = re.compile(rb'([A-Za-z][A-Za-z0-9_]{0,254})(?:\[([0-9]+)\])?|@([0-9]+)|(0x[0-9a-fA-F]+)|([0-9]+)|([+*^])')


class Wrong(Exception):
    """The first token of a text that has a fault: `syntax`, `net` or `bit`."""


class Text:
    """Tokens of a text of one line, between which spaces and tabs may stand."""

    def __init__(self, text):
        self.text, self.at = text, 0
        self.advance()

    def advance(self):
        text = self.text
        while self.at < len(text) and text[self.at] in b' \t':
            self.at += 1
        found = TOKEN.match(text, self.at)
        self.ended = self.at == len(text)
        self.name, self.place, self.net, self.hex, self.dec, self.sign = found.groups() if found else (None,) * 6
        self.at = found.end() if found else self.at

    def met(self, sign):
        found = self.sign == sign
        if found:
            self.advance()
        return found


def read_polynomial(text, field, variables, words_alone=False):
    """The polynomial as a dictionary: from exponents by word and a set of ranks to coefficients."""
    t, total = Text(text), {}
    while True:
        monomial, coefficient = term(t, field, variables, words_alone)
        c = total.get(monomial, 0) ^ coefficient
        total[monomial] = c
        if not t.met(b'+'):
            break
    if not t.ended:
        raise Wrong('syntax')
    return {m: c for m, c in total.items() if c}


def term(t, field, variables, words_alone):
    exponents, ranks = [0] * len(variables.words), set()
    if t.dec == b'0':
        t.advance()
        return (tuple(exponents), frozenset()), 0
    coefficient = 1
    if t.hex is not None:
        coefficient = int(t.hex, 16)
        if coefficient >= field.size:
            raise Wrong('syntax')
        t.advance()
        if not t.met(b'*'):
            return (tuple(exponents), frozenset()), coefficient
    while True:
        variable(t, field, variables, words_alone, exponents, ranks)
        if not t.met(b'*'):
            return (tuple(exponents), frozenset(ranks)), coefficient


def variable(t, field, variables, words_alone, exponents, ranks):
    names = [w.name for w in variables.words]
    if t.place is not None or t.net is not None:
        if words_alone:
            raise Wrong('syntax')
        rank = bit_rank(t, names, field.k) if t.place is not None else variables.of_net(int(t.net))
        if rank in ranks:
            raise Wrong('syntax')
        ranks.add(rank)
        return t.advance()
    if t.name is None or t.name not in names or exponents[names.index(t.name)]:
        raise Wrong('syntax')
    word = names.index(t.name)
    t.advance()
    exponents[word] = 1
    if t.met(b'^'):
        if t.dec is None or not 1 <= int(t.dec) < field.size:
            raise Wrong('syntax')
        exponents[word] = int(t.dec)
        t.advance()


def bit_rank(t, names, k):
    if t.name not in names or int(t.place) >= k:
        raise Wrong('bit')
    return names.index(t.name) * k + int(t.place)
