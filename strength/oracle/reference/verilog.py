"""The text of netlists in structural Verilog, and their net."""
import re
import sys

from .nets import Net

sys.setrecursionlimit(20000)

GATES = {'and': (1, 0), 'nand': (1, 1), 'or': (2, 0), 'nor': (2, 1), 'xor': (3, 0), 'xnor': (3, 1), 'buf': (0, 0), 'not': (0, 1)}
KEYWORDS = ['module', 'endmodule', 'input', 'output', 'wire', 'assign'] + list(GATES)
WORD = re.compile(rb'[A-Za-z_][A-Za-z0-9_$]*')
ESCAPED = re.compile(rb'\\([\x21-\x7e]+)')
NUMBER = re.compile(rb"[0-9][A-Za-z0-9_']*")
BIT = re.compile(rb"1'[bBhHdD][01]\Z")
DEC = re.compile(rb'[0-9]+\Z')
DIRECTIVE = re.compile(rb'[A-Za-z0-9_]*')
SIGN = re.compile(rb'~\^|\^~|[()\[\],;:=&|^~]')
REFUSED = re.compile(rb'&&|\|\||[#{?!]')


class Token:
    def __init__(self, kind, text, line, name=None):
        self.kind, self.text, self.line, self.name = kind, text, line, name


class Lexer:
    """Bytes to tokens; wrong bytes and words that are left out are tokens of their own, met where they stand."""

    def __init__(self, data):
        self.data, self.at, self.line, self.fresh = data, 0, 1, True

    def skip_to(self, end):
        feeds = self.data.count(b'\n', self.at, end)
        # whether all before this place on its line is white
        self.line, self.fresh = self.line + feeds, self.fresh or feeds > 0
        self.at = end

    def block(self, close):
        """A comment or attribute; None where it is not closed."""
        end = self.data.find(close, self.at + 2)
        if end < 0:
            return Token('wrong', b'', self.line)
        self.skip_to(end + 2)

    def next(self):
        data = self.data
        while self.at < len(data):
            rest = data[self.at:self.at + 2]
            if rest[:1] in (b' ', b'\t', b'\r', b'\f', b'\n'):
                self.skip_to(self.at + 1)
            elif rest == b'//':
                self.skip_line()
            elif rest in (b'/*', b'(*'):
                wrong = self.block(b'*/' if rest == b'/*' else b'*)')
                if wrong:
                    return wrong
            elif rest[:1] == b'`' and self.fresh:
                word = DIRECTIVE.match(data, self.at + 1)[0]
                if word not in (b'timescale', b'default_nettype'):
                    return Token('refused', word, self.line)
                self.skip_line()
            else:
                self.fresh = False
                return self.token()
        return Token('end', b'', 1 + data.count(b'\n'))

    def skip_line(self):
        end = self.data.find(b'\n', self.at)
        self.skip_to(len(self.data) if end < 0 else end)

    def token(self):
        for kind, form in (('word', WORD), ('escaped', ESCAPED), ('number', NUMBER), ('refused', REFUSED), ('sign', SIGN)):
            found = form.match(self.data, self.at)
            if found:
                made = Token(kind, found[0], self.line)
                self.at = found.end()
                return self.named(made, found)
        return Token('wrong', b'', self.line)

    def named(self, token, found):
        if token.kind == 'word' and token.text.decode() in KEYWORDS:
            token.kind = token.text.decode()
        elif token.kind in ('word', 'escaped'):
            token.name = found[1] if token.kind == 'escaped' else token.text
            token.kind = 'id' if len(token.name) <= 255 else 'long'
        elif token.kind == 'sign':
            token.kind = token.text.decode()
        elif token.kind == 'number':
            token.kind = 'bit' if BIT.match(token.text) else 'dec' if DEC.match(token.text) else 'refused'
        return token


class Reader:
    def __init__(self, data, file):
        self.file, self.lexer, self.net = file, Lexer(data), Net(file)
        self.declared, self.directed, self.owners = {}, set(), {}
        self.token, self.modules = None, 0
        self.advance()

    def advance(self):
        now = self.token
        self.token = self.lexer.next()
        return now

    def fault(self, number, text, token=None):
        return self.net.fault(number, '%s at line %d' % (text, (token or self.token).line))

    def wrong(self):
        """The fault of a token that does not go on: left out, or syntax."""
        t = self.token
        if t.kind in ('refused', 'dec') or (t.kind == 'module' and self.modules):
            return self.fault(31, t.text.decode('latin-1'))
        return self.net.fault(30, 'netlist line %d' % t.line)

    def take(self, *kinds):
        if self.token.kind not in kinds:
            raise self.wrong()
        return self.advance()

    def met(self, *kinds):
        return self.advance() if self.token.kind in kinds else None

    def read(self):
        self.take('module')
        self.modules = 1
        self.take('id')
        if self.met('('):
            if not self.met(')'):
                self.ports()
                self.take(')')
        self.take(';')
        while not self.met('endmodule'):
            self.item()
        if self.token.kind != 'end':
            raise self.wrong()
        return self.net.finish()

    def ports(self):
        if self.token.kind == 'id':
            self.advance()
            while self.met(','):
                self.take('id')
            return
        direction, bounds = None, None
        while True:
            if direction is None or self.token.kind != 'id':
                direction = self.take('input', 'output').kind
                self.met('wire')
                bounds = self.range()
            self.declare(direction, bounds)
            if not self.met(','):
                return

    def item(self):
        kind = self.token.kind
        if kind in ('input', 'output', 'wire'):
            self.advance()
            if kind != 'wire':
                self.met('wire')
            bounds = self.range()
            self.declare(kind, bounds)
            while self.met(','):
                self.declare(kind, bounds)
        elif kind == 'assign':
            self.advance()
            self.assign()
            while self.met(','):
                self.assign()
        elif kind in GATES:
            self.advance()
            self.instance(kind)
            while self.met(','):
                self.instance(kind)
        elif kind in ('id', 'long', 'module'):
            raise self.fault(31, self.token.text.decode('latin-1'))
        else:
            raise self.wrong()
        self.take(';')

    def number(self, most):
        if self.token.kind != 'dec':
            raise self.wrong()
        if int(self.token.text) > most:
            raise self.net.fault(30, 'netlist line %d' % self.token.line)
        return int(self.advance().text)

    def range(self):
        if not self.met('['):
            return None
        first = self.number(65535)
        self.take(':')
        second = self.number(65535)
        self.take(']')
        return min(first, second), max(first, second)

    def names(self, name, bounds):
        if bounds is None:
            return [name]
        return [b'%s[%d]' % (name, i) for i in range(bounds[0], bounds[1] + 1)]

    def declare(self, kind, bounds):
        token = self.token
        if token.kind != 'id':
            raise self.wrong()
        name, made = token.name, self.names(token.name, bounds)
        if len(made[-1]) > 255:
            raise self.net.fault(30, 'netlist line %d' % token.line)
        same = self.declared.get(name, bounds) == bounds and not (kind != 'wire' and name in self.directed)
        if not same or any(self.owners.get(n, name) != name for n in made):
            raise self.fault(33, 'redeclared')
        self.declared[name] = bounds
        for n in made:
            self.owners[n] = name
        if kind != 'wire':
            self.directed.add(name)
            nets = [self.net.net(n) for n in made]
            (self.net.inputs if kind == 'input' else self.net.outputs).extend(nets)
        self.advance()

    def target(self):
        token = self.token
        if token.kind != 'id':
            raise self.wrong()
        if token.name not in self.declared:
            raise self.fault(33, 'undeclared')
        bounds = self.declared[token.name]
        self.advance()
        if bounds is not None and self.token.kind != '[':
            raise self.fault(33, 'index', token)
        if self.token.kind != '[':
            return self.net.net(token.name)
        if bounds is None:
            raise self.fault(33, 'index')
        self.advance()
        if self.token.kind != 'dec':
            raise self.wrong()
        index = int(self.token.text)
        if not bounds[0] <= index <= bounds[1]:
            raise self.fault(33, 'index')
        self.advance()
        net = self.net.net(b'%s[%d]' % (token.name, index))
        self.take(']')
        return net

    def assign(self):
        out = self.target()
        self.take('=')
        self.open = 0
        self.drive(out, self.expression())

    def instance(self, kind):
        self.met('id')
        self.take('(')
        out = self.target()
        inputs = []
        self.take(',')
        inputs.append(self.operand())
        while self.met(','):
            inputs.append(self.operand())
        closing = self.take(')')
        if len(inputs) != 1 if kind in ('not', 'buf') else not 2 <= len(inputs) <= 6:
            raise self.fault(37, '%d inputs' % len(inputs), closing)
        self.net.gate(out, inputs, table_of(kind, len(inputs)))

    def operand(self):
        self.open = 0
        return self.settle(self.expression())

    # what an expression comes to: ('net', n), or a gate that is not driven yet: ('gate', inputs, table, line)

    def settle(self, made):
        if made[0] == 'net':
            return made[1]
        out = self.net.fresh(b'expr%d' % made[3])
        self.net.gate(out, made[1], made[2])
        return out

    def drive(self, out, made):
        if made[0] == 'net':
            self.net.gate(out, [made[1]], 2)
        else:
            self.net.gate(out, made[1], made[2])

    def binary(self, signs, below):
        left = below()
        while self.token.kind in signs:
            sign = self.advance()
            first = self.settle(left)
            second = self.settle(below())
            kind = {'&': 'and', '|': 'or', '^': 'xor'}.get(sign.kind, 'xnor')
            left = ('gate', [first, second], table_of(kind, 2), sign.line)
        return left

    def expression(self):
        return self.binary(('|',), lambda: self.binary(('^', '~^', '^~'), lambda: self.binary(('&',), self.unary)))

    def deeper(self):
        if self.open == 1024:
            raise self.fault(31, self.token.text.decode())
        self.open += 1
        return self.advance()

    def unary(self):
        kind = self.token.kind
        if kind == '~':
            sign = self.deeper()
            inner = self.settle(self.unary())
            self.open -= 1
            return 'gate', [inner], 1, sign.line
        if kind == '(':
            self.deeper()
            inner = self.expression()
            self.take(')')
            self.open -= 1
            return inner
        if kind == 'bit':
            token = self.advance()
            return 'gate', [], int(token.text[-1:]), token.line
        return 'net', self.target()


def table_of(kind, wide):
    operation, turned = GATES[kind]
    table = 0
    for index in range(1 << wide):
        ones = bin(index).count('1')
        bit = (index, ones == wide, ones > 0, ones & 1)[operation]
        table |= (int(bit) ^ turned) << index
    return table


def read_verilog(data, file):
    return Reader(data, file).read()
