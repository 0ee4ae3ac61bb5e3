"""The text of netlists in BLIF, and their net."""
import re

from .nets import Net

WORDS = (b'.model', b'.inputs', b'.outputs', b'.clock', b'.names', b'.latch', b'.subckt', b'.end')
TYPES = (b'fe', b're', b'ah', b'al', b'as')


class Statement:
    def __init__(self, line, word, operands):
        self.line, self.word, self.operands = line, word, operands
        self.rows, self.value = [], None


class Model:
    def __init__(self, name):
        self.name, self.statements, self.ended = name, [], False

    def ports(self, word):
        return [n for s in self.statements if s.word == word for n in s.operands]


def joined_lines(data):
    """Pairs of a line's number and its bytes, without comments, where lines that end in a backslash are joined."""
    lines = data.split(b'\n')
    if lines[-1] == b'':
        lines.pop()
    joined, begun = [], None
    for number, line in enumerate(lines, 1):
        line = line.split(b'#')[0].rstrip(b' \t\r')
        goes_on = line.endswith(b'\\')
        line = line[:-1] if goes_on else line
        begun = (begun[0], begun[1] + b' ' + line) if begun else (number, line)
        if not goes_on:
            joined.append(begun)
            begun = None
    return joined + ([begun] if begun else [])


def is_wrong(line):
    return any(len(t) > 255 for t in re.split(rb'[ \t]+', line)) or bool(re.search(rb'[^\x21-\x7e \t]', line))


class Design:
    def __init__(self, data, file):
        self.file, self.models = file, []
        self.cover = None
        lines = joined_lines(data)
        first = next((line for _, line in lines if line.lstrip(b' \t').startswith(b'.')), None)
        if first is None or re.match(rb'[ \t]*([\x21-\x7e]*)', first)[1] != b'.model':
            raise self.fault(32, 'no model')
        for number, line in lines:
            if line.strip(b' \t') or is_wrong(line):
                self.take(number, line)
        self.instances()

    def fault(self, number, text):
        return Net(self.file).fault(number, text)

    def syntax(self, line):
        return self.fault(30, 'netlist line %d' % line)

    def take(self, number, line):
        tokens = re.split(rb'[ \t]+', line.strip(b' \t'))
        if is_wrong(line):
            raise self.syntax(number)
        word, operands = tokens[0], tokens[1:]
        if not word.startswith(b'.'):
            return self.row(number, tokens)
        self.cover = None
        if self.models and self.models[-1].ended and word != b'.model':
            raise self.syntax(number)
        if word not in WORDS:
            raise self.fault(31, '%s at line %d' % (word.decode(), number))
        if not self.right_form(word, operands):
            raise self.syntax(number)
        if word == b'.names' and len(operands) > 7:
            raise self.fault(37, '%d inputs at line %d' % (len(operands) - 1, number))
        self.statement(number, word, operands)

    def right_form(self, word, operands):
        if word == b'.model':
            return len(operands) <= 1
        if word == b'.end':
            return not operands
        if word == b'.names':
            return bool(operands)
        if word == b'.latch':
            rest = operands[2:]
            if len(rest) >= 2:
                if rest[0] not in TYPES:
                    return False
                rest = rest[2:]
            return len(operands) >= 2 and (not rest or (len(rest) == 1 and rest[0] in (b'0', b'1', b'2', b'3')))
        if word == b'.subckt':
            return bool(operands) and all(0 < t.find(b'=') < len(t) - 1 for t in operands[1:])
        return True

    def statement(self, number, word, operands):
        if word == b'.model':
            name = operands[0] if operands else b''
            if any(m.name == name for m in self.models):
                raise self.fault(32, 'model twice at line %d' % number)
            self.models.append(Model(name))
        elif word == b'.end':
            self.models[-1].ended = True
        elif word != b'.clock':
            made = Statement(number, word, operands)
            self.models[-1].statements.append(made)
            self.cover = made if word == b'.names' else None

    def row(self, number, tokens):
        cover = self.cover
        wide = len(cover.operands) - 1 if cover else 0
        pattern = tokens[0] if wide else b''
        if cover is None or len(tokens) != (2 if wide else 1) or tokens[-1] not in (b'0', b'1'):
            raise self.syntax(number)
        if len(pattern) != wide or pattern.strip(b'01-') or cover.value not in (None, tokens[-1]):
            raise self.syntax(number)
        cover.value = tokens[-1]
        cover.rows.append(pattern)

    def model(self, name):
        return next((m for m in self.models if m.name == name), None)

    def instances(self):
        all_of = [s for m in self.models for s in m.statements if s.word == b'.subckt']
        for s in sorted(all_of, key=lambda s: s.line):
            self.connections(s)
        self.deepest = {}
        self.walk(self.models[0], [])
        if self.depth(self.models[0]) > 64:
            raise self.fault(32, 'more than 64 models deep')

    def connections(self, s):
        model = self.model(s.operands[0])
        if model is None:
            raise self.fault(32, 'no such model at line %d' % s.line)
        inputs, met = model.ports(b'.inputs'), set()
        for formal in (t.split(b'=', 1)[0] for t in s.operands[1:]):
            if formal not in inputs and formal not in model.ports(b'.outputs'):
                raise self.fault(32, 'no such formal at line %d' % s.line)
            if formal in met:
                raise self.fault(32, 'formal twice at line %d' % s.line)
            met.add(formal)
        if not set(inputs) <= met:
            raise self.fault(32, 'formal missing at line %d' % s.line)

    def walk(self, model, path):
        if model.name in path:
            raise self.fault(32, 'model %s contains itself' % model.name.decode())
        for s in model.statements:
            if s.word == b'.subckt':
                self.walk(self.model(s.operands[0]), path + [model.name])

    def depth(self, model):
        if model.name not in self.deepest:
            below = [self.depth(self.model(s.operands[0])) for s in model.statements if s.word == b'.subckt']
            self.deepest[model.name] = 1 + max([0] + below)
        return self.deepest[model.name]

    def flatten(self, model=None):
        net = Net(self.file)
        self.count = 0
        self.body(net, model or self.models[0], None, b'')
        return net.finish()

    def body(self, net, model, actuals, prefix):
        made, instance = {}, 0

        def mention(name):
            if actuals is None:
                return net.net(name)
            if name in actuals:
                return actuals[name]
            if name not in made:
                made[name] = net.fresh(prefix + name)
            return made[name]

        for s in model.statements:
            if s.word == b'.subckt':
                instance += 1
                self.count += 1
                if self.count > 1 << 20:
                    raise net.fault(38, 'too many instances')
                pairs = [t.split(b'=', 1) for t in s.operands[1:]]
                inner = {formal: mention(actual) for formal, actual in pairs}
                self.body(net, self.model(s.operands[0]), inner, prefix + b'%d/' % instance)
            elif s.word == b'.latch':
                following, out = mention(s.operands[0]), mention(s.operands[1])
                start = s.operands[-1] if len(s.operands) in (3, 5) else b'3'
                net.latch(following, out, {b'0': 0, b'1': 1}.get(start))
            else:
                nets = [mention(n) for n in s.operands]
                if s.word == b'.names':
                    net.gate(nets[-1], nets[:-1], table_of(s, len(nets) - 1))
                elif actuals is None:
                    (net.inputs if s.word == b'.inputs' else net.outputs).extend(nets)


def table_of(cover, wide):
    table = 0
    for index in range(1 << wide):
        fits = any(all(c == 45 or c - 48 == (index >> i) & 1 for i, c in enumerate(row)) for row in cover.rows)
        if cover.rows and fits == (cover.value == b'1'):
            table |= 1 << index
    return table


def read_blif(data, file):
    return Design(data, file).flatten()
