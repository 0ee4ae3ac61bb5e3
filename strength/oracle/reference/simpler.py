"""Nets made simpler: functions of few nets are put together, gate by gate, twice.

A form is a rising tuple of nets, its leaves, and a table with a bit for each choice of their bits; it depends on each leaf.
Each net has a unit, which is what gates before it read instead of it, and a body, which is what it is when it is opened.
"""
import functools
import itertools

from .nets import Gate, Net

# How many leaves forms may have together where an input is opened.
FEW = 4


def simpler(net, ends):
    """The net after two rounds, for the nets whose bits are wanted."""
    return one_round(one_round(net, ends), ends)


def one_round(net, ends):
    net.levels()
    order = net.elimination()[::-1]
    used = uses(net, order, ends)
    forms = Forms({n: used[n] == 1 for n in net.driver})
    for n in set(range(len(net.labels))) - set(net.driver):
        forms.unit[n] = forms.body[n] = (n,), 0b10
    for p in order:
        if used[net.gates[p].out]:
            forms.settle(net.gates[p])
    simple = Net(net.file)
    simple.labels, simple.names = net.labels, net.names
    simple.inputs, simple.outputs = net.inputs, net.outputs
    simple.gates = [forms.gate(g) if used[g.out] else g for g in net.gates]
    simple.levels()
    return simple


def uses(net, order, ends):
    """How often each net stands among the ends and among the inputs of gates that are used."""
    used = [0] * len(net.labels)
    for n in ends:
        used[n] += 1
    for p in reversed(order):
        if used[net.gates[p].out]:
            for n in net.gates[p].inputs:
                used[n] += 1
    return used


def union(forms):
    return sorted({n for leaves, _ in forms for n in leaves})


def composed(table, forms):
    """The form of the table's function of the forms."""
    leaves = union(forms)
    inner = tuple((tuple(map(leaves.index, own)), values) for own, values in forms)
    places, values = by_places(table, inner, len(leaves))
    return tuple(leaves[i] for i in places), values


@functools.lru_cache(maxsize=1 << 18)
def by_places(table, forms, count):
    """The same where leaves are numbered from 0: those on which the value depends, and the table over them."""
    value = {}
    for bits in itertools.product((0, 1), repeat=count):
        index = 0
        for i, (own, values) in enumerate(forms):
            index |= (values >> sum(bits[n] << j for j, n in enumerate(own)) & 1) << i
        value[bits] = table >> index & 1
    places = tuple(i for i in range(count) if any(value[b] != value[b[:i] + (1 - b[i],) + b[i + 1:]] for b in value))
    shown = 0
    for bits in itertools.product((0, 1), repeat=len(places)):
        at = [0] * count
        for i, bit in zip(places, bits):
            at[i] = bit
        shown |= value[tuple(at)] << sum(bit << j for j, bit in enumerate(bits))
    return places, shown


def complement(form):
    leaves, values = form
    return leaves, values ^ (1 << (1 << len(leaves))) - 1


class Forms:
    """The unit and the body of each net so far."""

    def __init__(self, single):
        self.unit, self.body, self.single, self.found = {}, {}, single, {}

    def settle(self, gate):
        form = self.chosen(gate)
        if len(form[0]) < 2:
            self.unit[gate.out] = form
            self.body[gate.out] = composed(form[1], [self.body[n] for n in form[0]])
            return
        self.body[gate.out] = form
        if complement(form) in self.found:
            self.unit[gate.out] = (self.found[complement(form)],), 0b01
        else:
            self.unit[gate.out] = (self.found.setdefault(form, gate.out),), 0b10

    def chosen(self, gate):
        """The cheapest function of other nets; of several the one in which the last inputs are opened."""
        best = None
        for opened in range(1 << len(gate.inputs)):
            forms = [(self.body if opened >> i & 1 else self.unit)[n] for i, n in enumerate(gate.inputs)]
            if opened and len(union(forms)) > FEW:
                continue
            form = composed(gate.table, forms)
            price = sum(self.single.get(n, False) for n in form[0]), len(form[0])
            if best is None or price <= best[0]:
                best = price, form
        return best[1]

    def gate(self, gate):
        """The gate after the round: a net that is kept has its body, any other its unit."""
        leaves, values = self.unit[gate.out]
        if gate.out in leaves:
            leaves, values = self.body[gate.out]
        return Gate(gate.out, list(leaves), values)
