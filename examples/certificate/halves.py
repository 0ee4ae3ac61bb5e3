"""A certificate in two halves: from the output word down to its polynomial in bits, and from there to the one in words.

The signature, the netlist and the text of the certificate are read by `strength/oracle/reference`, which shares nothing with
the program; polynomials of gates, generators and forms are made here, as `docs/FORMATS.md` has them ("A checker of one's
own"). A polynomial is a dictionary from a monomial, a set of numbers of nets, to a coefficient. Each bit of a word is a net.
"""
import os
import sys

sys.path.insert(0, os.path.join(os.path.dirname(os.path.abspath(__file__)), '..', '..', 'strength', 'oracle'))
sys.dont_write_bytecode = True
from reference import certificates  # noqa: E402
from reference.answers import bound_net  # noqa: E402
from reference.fields import bits_of, dual_of  # noqa: E402
from reference.nets import Flat, Job  # noqa: E402
from reference.signature import Signature  # noqa: E402


class Files(dict):
    def __missing__(self, name):
        with open(name, 'rb') as f:
            self[name] = f.read()
        return self[name]

    def __contains__(self, name):
        return os.path.exists(name)


def add(total, monomial, coefficient):
    """Adds a term; addition in the field is the exclusive or, so equal terms cancel."""
    total[monomial] = total.get(monomial, 0) ^ coefficient
    if not total[monomial]:
        del total[monomial]


def gate_polynomial(gate):
    """The sets of inputs whose products add up to the gate: places S, if the bits of the table below S add up to 1."""
    sets = {}
    for s in range(1 << len(gate.inputs)):
        if sum((gate.table >> j) & 1 for j in range(s + 1) if j & ~s == 0) % 2:
            add(sets, frozenset(n for i, n in enumerate(gate.inputs) if (s >> i) & 1), 1)
    return sets


class Halves:
    """What a certificate says of nets, and what it says of words."""

    def __init__(self, sig, net, cert, cycles):
        files = Files()
        signature = Signature(files[sig])
        self.signature, self.field = signature, signature.field
        self.flat = Flat(Job(self.field, bound_net(signature, net, files), cycles))
        self.read = certificates.Reader(files[cert], self.flat).certificate
        self.words, self.output = self.flat.words, self.flat.output
        self.bits = {n: (w, i) for w, word in enumerate(self.words) for i, n in enumerate(self.flat.nets[word.name])}
        self.number = [n for word in self.words for n in self.flat.nets[word.name]]
        self.number += [n for n in range(len(self.flat.net.labels)) if n not in self.bits]
        self.gates = {gate.out: gate_polynomial(gate) for gate in self.flat.net.gates}
        self.outputs = self.flat.nets[self.output.name]
        self.duals = {}

    def net_lines(self):
        """For each net with a line, what its generator is multiplied by in all, in bits."""
        sums = {}
        for generator, multiplier in self.read.pairs:
            if generator[0] == 'net':
                total = sums.setdefault(generator[1], {})
                for (exponents, ranks), c in multiplier.items():
                    if any(exponents):
                        sys.exit('a net line with a word in it: its half is no matter of bits')
                    add(total, frozenset(self.number[r] for r in ranks), c)
        return sums

    def bit_lines(self):
        """The lines of bits: the word, the place, and the multiplier as a list of exponents, nets and a coefficient."""
        for generator, multiplier in self.read.pairs:
            if generator[0] == 'bit':
                yield generator[1], generator[2], [(e, [self.number[r] for r in sorted(s)], c) for (e, s), c in multiplier.items()]

    def in_bits(self):
        """The output word plus all products of net lines: its polynomial in bits, if the lines lead there."""
        total = {}
        for beta, n in zip(self.output.elements, self.outputs):
            add(total, frozenset([n]), beta)
        for net, multiplier in self.net_lines().items():
            for m, c in multiplier.items():
                add(total, m | {net}, c)
                for s in self.gates[net]:
                    add(total, m | s, c)
        if any(n not in self.bits for m in total for n in m):
            sys.exit('the net lines leave nets that are no bits of words')
        return total

    def coordinates(self, polynomial):
        """Over the output's basis, place by place, the monomials whose coefficient has that coordinate."""
        found = [[] for _ in self.outputs]
        for m, c in polynomial.items():
            for i, bit in enumerate(bits_of(self.output.elements, c)):
                if bit:
                    found[i].append(m)
        return found

    def form(self, w, place):
        """What reads a bit from its word: the coefficients of the word's powers to 2^0, 2^1, .., by the dual basis."""
        if w not in self.duals:
            self.duals[w] = dual_of(self.field, self.words[w].elements)
        powers = [self.duals[w][place]]
        while len(powers) < self.field.k:
            powers.append(self.field.mul(powers[-1], powers[-1]))
        return powers


def halves_of(words, usage):
    """The halves that the words of a command line name, and what stands behind them."""
    cycles = 0
    if '--cycles' in words:
        at = words.index('--cycles')
        cycles = int(words[at + 1])
        words = words[:at] + words[at + 2:]
    if len(words) < 3:
        sys.exit(usage)
    return Halves(*words[:3], cycles), words[3:]
