"""The text of specifications."""
import re

from .fields import Fault

TOKEN = re.compile(rb'([A-Za-z][A-Za-z0-9_]{0,254})|(0x[0-9a-fA-F]+)|([0-9]+)|([=+*^])')


class Spec:
    def __init__(self, data, field, output, words):
        self.field, self.output, self.words = field, output, [w.name for w in words]
        self.tokens, at = [], 0
        while True:
            while at < len(data) and data[at] in b' \t\r\n':
                at += 1
            found = TOKEN.match(data, at)
            kind = 'name hex dec sign'.split()[found.lastindex - 1] if found else ('end' if at == len(data) else 'wrong')
            self.tokens.append((kind, found[0] if found else b'', at))
            if not found:
                break
            at = found.end()
        self.at, self.terms = 0, []
        self.read()

    def fault(self, number, text):
        return Fault(number, '%s at byte %d' % (text, self.tokens[self.at][2]))

    def kind(self):
        return self.tokens[self.at][0]

    def sign(self, text):
        found = self.tokens[self.at][:2] == ('sign', text)
        self.at += found
        return found

    def read(self):
        if self.kind() != 'name':
            raise self.fault(40, 'syntax')
        if self.tokens[self.at][1] != self.output:
            raise self.fault(41, 'unknown word')
        self.at += 1
        if not self.sign(b'='):
            raise self.fault(40, 'syntax')
        while True:
            self.term()
            if not self.sign(b'+'):
                break
        if self.kind() != 'end':
            raise self.fault(40, 'syntax')

    def term(self):
        coefficient, pairs = 1, []
        while True:
            kind, text, _ = self.tokens[self.at]
            if kind == 'name':
                pairs.append(self.power(text))
            elif kind in ('hex', 'dec'):
                value = int(text, 16 if kind == 'hex' else 10)
                if value >= (self.field.size if kind == 'hex' else 2):
                    raise self.fault(42, 'number')
                coefficient = self.field.mul(coefficient, value)
                self.at += 1
            else:
                raise self.fault(40, 'syntax')
            if not self.sign(b'*'):
                break
        self.terms.append((coefficient, pairs))

    def power(self, name):
        if name not in self.words:
            raise self.fault(41, 'unknown word')
        self.at += 1
        if not self.sign(b'^'):
            return self.words.index(name), 1
        kind, text, _ = self.tokens[self.at]
        if kind != 'dec':
            raise self.fault(40, 'syntax')
        if int(text) >= 1 << 64:
            raise self.fault(42, 'number')
        self.at += 1
        return self.words.index(name), int(text)

    def value(self, xs):
        total = 0
        for coefficient, pairs in self.terms:
            product = coefficient
            for w, e in pairs:
                product = self.field.mul(product, self.field.power(xs[w], e))
            total ^= product
        return total
