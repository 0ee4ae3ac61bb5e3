"""Nets: what makes them sound, words bound to them, levels, and the runs of a net with latches and feeds."""
from .fields import Fault, bits_of, element_of

MOST = 1 << 20


class Gate:
    def __init__(self, out, inputs, table):
        self.out, self.inputs, self.table = out, inputs, table

    def bit(self, bits):
        index = sum(bits[n] << i for i, n in enumerate(self.inputs))
        return (self.table >> index) & 1


class Net:
    """Nets by number, in the order in which they are met; a named one is found by its name."""

    def __init__(self, file):
        self.file, self.labels, self.names = file, [], {}
        self.inputs, self.outputs, self.gates, self.latches = [], [], [], []

    def fault(self, number, text):
        return Fault(number, '%s in %s' % (text, self.file))

    def fresh(self, label):
        if len(self.labels) == MOST:
            raise self.fault(38, 'too many nets')
        self.labels.append(label)
        return len(self.labels) - 1

    def net(self, name):
        if name not in self.names:
            self.names[name] = self.fresh(name)
        return self.names[name]

    def room(self):
        if len(self.gates) + len(self.latches) == MOST:
            raise self.fault(38, 'too many gates')

    def gate(self, out, inputs, table):
        self.room()
        self.gates.append(Gate(out, list(inputs), table))

    def latch(self, following, out, start):
        self.room()
        self.latches.append((following, out, start))

    def label(self, net):
        return self.labels[net].decode('latin-1')

    def finish(self):
        drivers = [0] * len(self.labels)
        for n in self.inputs + [g.out for g in self.gates] + [l[1] for l in self.latches]:
            drivers[n] += 1
        for count, number, text in ((lambda d: d > 1, 34, 'net %s is driven twice'), (lambda d: d == 0, 35, 'net %s is not driven')):
            wrong = next((n for n, d in enumerate(drivers) if count(d)), None)
            if wrong is not None:
                raise self.fault(number, text % self.label(wrong))
        self.levels()
        return self

    def levels(self):
        """Levels of gates by position; a loop is found by the walk from the first gate that has none."""
        self.driver = {g.out: p for p, g in enumerate(self.gates)}
        self.level = {}
        waiting, users = {}, {}
        for p, g in enumerate(self.gates):
            before = {self.driver[n] for n in g.inputs if n in self.driver}
            waiting[p] = len(before)
            for q in before:
                users.setdefault(q, []).append(p)
        ready = [p for p in waiting if waiting[p] == 0]
        while ready:
            p = ready.pop()
            self.level[p] = 1 + max([0] + [self.level[self.driver[n]] for n in self.gates[p].inputs if n in self.driver])
            for q in users.get(p, []):
                waiting[q] -= 1
                if waiting[q] == 0:
                    ready.append(q)
        left = [p for p in range(len(self.gates)) if p not in self.level]
        if left:
            self.refuse_loop(left)

    def refuse_loop(self, left):
        remaining, met = set(left), []
        at = left[0]
        while at not in met:
            met.append(at)
            at = next(self.driver[n] for n in self.gates[at].inputs if self.driver.get(n) in remaining)
        loop = met[met.index(at):]
        raise self.fault(36, 'loop of %d nets through %s' % (len(loop), self.label(self.gates[loop[0]].out)))

    def elimination(self):
        """Positions of gates by falling level, and within a level by falling position."""
        return sorted(range(len(self.gates)), key=lambda p: (-self.level[p], -p))

    def evaluate(self, bits):
        for p in reversed(self.elimination()):
            bits[self.gates[p].out] = self.gates[p].bit(bits)
        return bits

    def reaches(self, roots):
        """All nets from which gates lead to one of these."""
        seen, stack = set(), list(roots)
        while stack:
            n = stack.pop()
            if n not in seen:
                seen.add(n)
                if n in self.driver:
                    stack.extend(self.gates[self.driver[n]].inputs)
        return seen


class Bound:
    """The words of a scope bound to a net, with the feeds of a signature, or the first fault."""

    def __init__(self, scope, feeds, net):
        self.scope, self.net, self.feeds = scope, net, {}
        self.nets = {}
        taken = set()
        for word in scope.words:
            self.nets[word.name] = [self.place(word, i, name, taken) for i, name in enumerate(word.nets)]
        self.in_inputs = {n for w in scope.words if w.role == 'input' for n in self.nets[w.name]}
        self.in_states = {n for w in scope.words if w.role == 'state' for n in self.nets[w.name]}
        for feed in feeds:
            n = net.names.get(feed.net)
            if n is None or n not in net.inputs or n in self.in_inputs:
                raise net.fault(13, 'feed at line %d is no free input' % feed.line)
            self.feeds[n, feed.cycle] = feed
        self.fed = {n for n, _ in self.feeds}
        self.covered()

    def place(self, word, i, name, taken):
        net, called = self.net, '%s[%d]' % (word.name.decode(), i)
        n = net.names.get(name)
        if n is None:
            raise net.fault(39, 'no net for ' + called)
        if word.role == 'input' and n not in net.inputs:
            raise net.fault(39, called + ' is no input')
        if word.role == 'state' and n not in [l[1] for l in net.latches]:
            raise net.fault(39, called + ' is no latch')
        if word.role != 'output':
            if n in taken:
                raise net.fault(39, 'net %s stands twice' % net.label(n))
            taken.add(n)
        return n

    def covered(self):
        net = self.net
        used = set(self.nets[self.scope.output.name]) | {l[0] for l in net.latches} | {n for g in net.gates for n in g.inputs}
        for n in sorted(net.inputs):
            if n in used and n not in self.in_inputs and n not in self.fed:
                raise net.fault(39, 'input %s is in no word' % net.label(n))
        for _, out, start in net.latches:
            if start is None and out not in self.in_states:
                raise net.fault(39, 'latch %s has no start' % net.label(out))

    def is_flat(self):
        return not (self.net.latches or self.feeds or any(w.role == 'fed' for w in self.scope.words))


class Job:
    """A bound net over a number of cycles: its output at each input."""

    def __init__(self, field, bound, cycles):
        self.field, self.bound, self.cycles = field, bound, cycles
        self.words, self.output = bound.scope.inner, bound.scope.output

    def check_limits(self):
        net, b, c = self.bound.net, self.bound, self.cycles
        if b.is_flat():
            return
        v, fed_words = len(net.labels), sum(w.role == 'fed' for w in self.words)
        if (c + 1) * v + fed_words * self.field.k > MOST:
            raise net.fault(38, 'too many nets')
        free = sum(l[1] not in b.in_states for l in net.latches)
        gates = (c + 1) * len(net.gates) + free + c * (len(net.inputs) + len(net.latches)) + len(b.fed)
        if gates > MOST:
            raise net.fault(38, 'too many gates')

    def output_at(self, xs):
        bits = {w.name: bits_of(w.elements, x) for w, x in zip(self.words, xs)}
        return element_of(self.output.elements, self.run(bits))

    def run(self, word_bits):
        """The output word's bits in the last cycle."""
        b, net = self.bound, self.bound.net
        now = None
        for t in range(self.cycles + 1):
            values = [0] * len(net.labels)
            for w in self.words:
                if w.role == 'input' or (w.role == 'state' and t == 0):
                    for n, bit in zip(b.nets[w.name], word_bits[w.name]):
                        values[n] = bit
            for n in b.fed:
                feed = b.feeds.get((n, t))
                values[n] = 0 if feed is None else word_bits[feed.word][feed.place] if feed.word else feed.place
            for following, out, start in net.latches:
                if t > 0:
                    values[out] = now[following]
                elif out not in b.in_states:
                    values[out] = start
            now = net.evaluate(values)
        return [now[n] for n in b.nets[self.output.name]]


class Flat:
    """What stages speak of: the unrolled net, its gates in order of elimination, and the variables of its words."""

    def __init__(self, job):
        self.field, self.words, self.output = job.field, job.words, job.output
        b, c = job.bound, job.cycles
        if b.is_flat():
            self.net = b.net
            self.nets = {w.name: b.nets[w.name] for w in b.scope.words}
        else:
            self.unroll(job, b, c)
        self.net.levels()

    def unroll(self, job, b, c):
        old, net, v = b.net, Net(b.net.file), len(b.net.labels)
        net.labels = old.labels * (c + 1)
        fed_words = [w for w in self.words if w.role == 'fed']
        self.nets = {w.name: b.nets[w.name] for w in self.words if w.role != 'fed'}
        for j, w in enumerate(fed_words):
            self.nets[w.name] = [(c + 1) * v + j * self.field.k + i for i in range(self.field.k)]
            net.labels = net.labels + [b'%s[%d]' % (w.name, i) for i in range(self.field.k)]
        self.nets[self.output.name] = [c * v + n for n in b.nets[self.output.name]]
        for t in range(c + 1):
            self.cycle(net, old, b, t, v)
        net.inputs = [n for n in old.inputs if n not in b.fed] + [l[1] for l in old.latches if l[1] in b.in_states]
        net.inputs += [n for w in fed_words for n in self.nets[w.name]]
        self.net = net

    def cycle(self, net, old, b, t, v):
        for n in old.inputs:
            if n in b.fed:
                self.feed(net, b.feeds.get((n, t)), t * v + n)
            elif t:
                net.gate(t * v + n, [n], 2)
        for following, out, start in old.latches:
            if t:
                net.gate(t * v + out, [(t - 1) * v + following], 2)
            elif out not in b.in_states:
                net.gate(out, [], start)
        for g in old.gates:
            net.gate(t * v + g.out, [t * v + n for n in g.inputs], g.table)

    def feed(self, net, feed, out):
        if feed is None or feed.word is None:
            net.gate(out, [], feed.place if feed else 0)
        else:
            net.gate(out, [self.nets[feed.word][feed.place]], 2)
