"""Composition of blocks as words: what feeds what, the refusals of the structure, and the polynomials of instances."""
from .blif import Design
from .fields import Fault
from .nets import Bound, Flat, Job
from .polynomials import Bounded, added, cuts, in_words, product_by, raised


def refused(text):
    return Fault(44, text)


class Instance:
    """An instance of the top: its number, its model, its block and its actuals by formal."""

    def __init__(self, number, statement, blocks):
        self.number, self.model = number, statement.operands[0]
        self.actual = dict(t.split(b'=', 1) for t in statement.operands[1:])
        self.block = next((b for b in blocks if b.model == self.model), None)
        self.feeds = []

    def nets(self, word):
        """The actuals of a word's nets; none where a place is not connected."""
        return [self.actual.get(n) for n in word.nets]


class Composition:
    def __init__(self, data, file, signature):
        self.file, self.signature, self.field = file, signature, signature.field
        self.design = Design(data, file)
        # the flat top is sound and bound, before all else
        self.flat = Bound(signature.top, signature.feeds, self.design.flatten())
        self.structure()
        self.check_blocks()
        self.connect()
        self.levels()

    def structure(self):
        top = self.design.models[0].statements
        if self.signature.feeds or any(w.role == 'fed' for w in self.signature.top.words):
            raise refused('the signature has a feed')
        first = next((s for s in top if s.word in (b'.names', b'.latch')), None)
        if first:
            raise refused('gate or latch at line %d of the top' % first.line)
        lines = [s for s in top if s.word == b'.subckt']
        self.instances = [Instance(n, s, self.signature.blocks) for n, s in enumerate(lines, 1)]
        for instance in self.instances:
            if instance.block is None:
                raise refused('no block ' + instance.model.decode())

    def check_blocks(self):
        self.bound = {}
        for instance in self.instances:
            name = instance.model
            if name not in self.bound:
                self.bound[name] = self.bound_block(name, instance.block)

    def bound_block(self, name, block):
        try:
            net = self.design.flatten(self.design.model(name))
        except Fault:
            raise refused('block %s is no net' % name.decode())
        if net.latches:
            raise refused('block %s has a latch' % name.decode())
        try:
            return Bound(block, [], net)
        except Fault:
            raise refused('block %s does not bind' % name.decode())

    def sources(self):
        """The words that can feed: ('top', w) and ('instance', i), with their nets and their basis."""
        for w, word in enumerate(self.signature.top.inner):
            yield ('top', w), word.nets, word.elements
        for i, instance in enumerate(self.instances):
            output = instance.block.output
            yield ('instance', i), instance.nets(output), output.elements

    def feed(self, nets, elements):
        return next((source for source, n, e in self.sources() if n == nets and e == elements and None not in n), None)

    def connect(self):
        for instance in self.instances:
            for place, word in enumerate(instance.block.words):
                if not self.takes(instance, word):
                    raise refused('instance %d word %s' % (instance.number, word.name.decode()))
        output = self.signature.top.output
        self.output = self.feed(output.nets, output.elements)
        if self.output is None:
            raise refused('output word')

    def takes(self, instance, word):
        if word.role != 'output':
            source = self.feed(instance.nets(word), word.elements)
            instance.feeds.append(source)
            return source is not None
        inputs = self.design.model(instance.model).ports(b'.inputs')
        return all(n in instance.actual and n not in inputs for n in word.nets)

    def levels(self):
        """The instances by rising level and number, or the cycle that they stand in."""
        level, left = {}, [i for i in range(len(self.instances))]
        while left:
            ready = [i for i in left if all(j in level for j in self.before(i))]
            if not ready:
                raise self.cycle(left)
            for i in ready:
                level[i] = 1 + max([0] + [level[j] for j in self.before(i)])
            left = [i for i in left if i not in level]
        self.order = sorted(level, key=lambda i: (level[i], i))

    def before(self, i):
        return [source[1] for source in self.instances[i].feeds if source[0] == 'instance']

    def cycle(self, left):
        at, met = left[0], []
        while at not in met:
            met.append(at)
            at = next(j for j in self.before(at) if j in left)
        return refused('loop through instance %d' % self.instances[at].number)

    def polynomial(self, bound):
        """The polynomial of the top's output, as a dictionary from exponents to coefficients."""
        blocks = {}
        for name, block in self.bound.items():
            flat = Flat(Job(self.field, block, 0))
            bounded = Bounded(bound, 'block %s ' % name.decode())
            blocks[name] = in_words(flat, cuts(flat, bounded), bounded)
        self.values = {}
        for i in self.order:
            self.values[i] = self.instance_polynomial(self.instances[i], blocks[self.instances[i].model], Bounded(bound))
        return self.of(self.output)

    def of(self, source):
        if source[0] == 'instance':
            return self.values[source[1]]
        exponents = [0] * len(self.signature.top.inner)
        exponents[source[1]] = 1
        return {tuple(exponents): 1}

    def instance_polynomial(self, instance, block, bounded):
        feeds, total = [self.of(source) for source in instance.feeds], {}
        one = (0,) * len(self.signature.top.inner)
        for s, exponents in enumerate(sorted((m[0] for m in block), reverse=True), 1):
            product, factor = {one: block[exponents, frozenset()]}, 0
            for feed, e in zip(feeds, exponents):
                for j in range(e.bit_length()):
                    if (e >> j) & 1:
                        factor += 1
                        product = multiplied(self.field, product, conjugate(self.field, feed, j))
                        bounded.check('instance %d term %d factor %d' % (instance.number, s, factor), len(product))
            for m, c in product.items():
                added(total, m, c)
            bounded.check('instance %d sum %d' % (instance.number, s), len(total))
        return total


def multiplied(field, p, q):
    return product_by(field, p, q, lambda e, f: tuple(raised(field, x, y) for x, y in zip(e, f)))


def conjugate(field, p, j):
    """A polynomial to the power 2^j: squared j times, term by term."""
    for _ in range(j):
        p = {tuple(raised(field, e, e) for e in m): field.mul(c, c) for m, c in p.items()}
    return p
