"""The text of signatures."""
import re

from .fields import Fault, basis_of, field_of

TOKEN = re.compile(rb'[\x21\x22\x24-\x5b\x5d-\x7e]+')
NAME = re.compile(rb'[A-Za-z][A-Za-z0-9_]{0,254}\Z')
HEX = re.compile(rb'0x[0-9a-fA-F]+\Z')
DEC = re.compile(rb'[0-9]+\Z')
BIT = re.compile(rb'([A-Za-z][A-Za-z0-9_]{0,254})\[([0-9]+)\]\Z')


class Word:
    def __init__(self, line, name, role, basis, nets):
        self.line, self.name, self.role, self.basis, self.nets = line, name, role, basis, nets
        self.elements = None


class Scope:
    """The words of the top or of a block."""

    def __init__(self, model=None):
        self.model, self.words = model, []

    @property
    def output(self):
        return next((w for w in self.words if w.role == 'output'), None)

    @property
    def inner(self):
        return [w for w in self.words if w.role != 'output']


class Feed:
    def __init__(self, line, net, cycle, word, place):
        self.line, self.net, self.cycle, self.word, self.place = line, net, cycle, word, place


def lines_of(data):
    """Lines end with LF, and a CR before it is dropped."""
    pieces = data.split(b'\n')
    last = pieces.pop()
    lines = [p[:-1] if p.endswith(b'\r') else p for p in pieces]
    return lines + ([last] if last else [])


def syntax(line):
    return Fault(20, 'signature line %d' % line)


def tokens_of(line, number):
    line = line.split(b'#')[0]
    if TOKEN.sub(b'', line).strip(b' \t'):
        raise syntax(number)
    return TOKEN.findall(line)


def hexadecimal(token, below):
    value = int(token, 16) if HEX.match(token) else None
    return value if value is not None and value < below else None


def basis_text(token):
    if token == b'poly':
        return ('poly',)
    kind, _, rest = token.partition(b':')
    values = [hexadecimal(t, 1 << 64) for t in rest.split(b',')]
    if None in values or (kind, len(values) == 1) == (b'normal', False) or kind not in (b'normal', b'list'):
        return None
    return ('normal', values[0]) if kind == b'normal' else ('list', values)


class Reader:
    def __init__(self, data):
        self.top, self.blocks, self.feeds, self.fed_nets = Scope(), [], [], set()
        self.version, self.modulus, self.towers = None, None, []
        number = 0
        for number, line in enumerate(lines_of(data), 1):
            tokens = tokens_of(line, number)
            if tokens:
                self.take(tokens, number)
        if self.modulus is None:
            raise syntax(number + 1)
        for scope in [self.top] + self.blocks:
            if scope.output is None:
                raise Fault(28, 'no output word' + (' in block ' + scope.model.decode() if scope.model else ''))

    def take(self, tokens, number):
        if self.version is None:
            if tokens not in ([b'gfsig', b'1'], [b'gfsig', b'2']):
                raise syntax(number)
            self.version = int(tokens[1])
        elif self.modulus is None:
            value = hexadecimal(tokens[1], 1 << 128) if tokens[0] == b'field' and len(tokens) == 2 else None
            if value is None:
                raise syntax(number)
            self.modulus = value
        elif tokens[0] == b'word':
            self.word(tokens, number)
        elif tokens[0] == b'block' and len(tokens) == 2 and len(tokens[1]) <= 255:
            if any(b.model == tokens[1] for b in self.blocks):
                raise Fault(27, 'name twice at line %d' % number)
            self.blocks.append(Scope(tokens[1]))
        elif tokens[0] == b'feed' and self.version == 2 and not self.blocks:
            self.feed(tokens, number)
        elif tokens[0] == b'tower':
            self.tower(tokens, number)
        else:
            raise syntax(number)

    def tower(self, tokens, number):
        values = [hexadecimal(t, 1 << 64) for t in tokens[1:]]
        late = self.top.words or self.feeds or self.blocks or len(self.towers) == self.version
        if late or not values or None in values:
            raise syntax(number)
        self.towers.append(values)

    def word(self, tokens, number):
        scope = self.blocks[-1] if self.blocks else self.top
        if len(tokens) < 4 or not NAME.match(tokens[1]) or (self.feeds and not self.blocks):
            raise syntax(number)
        role, basis, nets = tokens[2].decode(), basis_text(tokens[3]), tokens[4:]
        fed = role == 'fed' and self.version == 2 and not self.blocks and not nets
        plain = role in ('input', 'state', 'output') and nets and all(len(n) <= 255 for n in nets)
        if basis is None or not (fed or plain):
            raise syntax(number)
        if any(w.name == tokens[1] for w in scope.words):
            raise Fault(27, 'name twice at line %d' % number)
        if role == 'output' and scope.output:
            raise Fault(28, 'second output word at line %d' % number)
        if role != 'output' and len(scope.inner) == 8:
            raise Fault(29, 'ninth word at line %d' % number)
        scope.words.append(Word(number, tokens[1], role, basis, nets))

    def feed(self, tokens, number):
        if len(tokens) != 4 or len(tokens[1]) > 255 or not DEC.match(tokens[2]) or int(tokens[2]) > 4096:
            raise syntax(number)
        bit = BIT.match(tokens[3])
        if tokens[3] not in (b'0', b'1') and not (bit and int(bit[2]) <= 63):
            raise syntax(number)
        name = bit[1] if bit else None
        if name and not any(w.name == name and w.role == 'fed' for w in self.top.words):
            raise Fault(12, 'no fed word at line %d' % number)
        key = (tokens[1], int(tokens[2]))
        if key in self.fed_nets:
            raise Fault(12, 'feed twice at line %d' % number)
        self.fed_nets.add(key)
        self.feeds.append(Feed(number, tokens[1], int(tokens[2]), name, int(bit[2]) if bit else int(tokens[3])))


class Signature:
    """A signature with its field and the bases of its words, or the first fault."""

    def __init__(self, data):
        read = Reader(data)
        self.version, self.modulus, self.towers = read.version, read.modulus, read.towers
        self.top, self.blocks, self.feeds = read.top, read.blocks, read.feeds
        towers = read.towers + [[], []]
        self.field = field_of(read.modulus, towers[0], towers[1])
        for scope in [self.top] + self.blocks:
            for word in scope.words:
                if word.role != 'fed' and len(word.nets) != self.field.k:
                    raise Fault(26, 'bits at line %d' % word.line)
                word.elements = basis_of(self.field, word.basis, word.line)
        for feed in self.feeds:
            if feed.word and feed.place >= self.field.k:
                raise Fault(26, 'bits at line %d' % feed.line)
