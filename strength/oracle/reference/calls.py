"""Random calls of the commands that make, compose, certify and tabulate: their words and the texts of their files."""
from .answers import answer
from .cases import TOWERS, Case, Design
from .fields import is_irreducible
from .hierarchies import compose


def nets(letter, k):
    return ' '.join('%s%d' % (letter, i) for i in range(k))


def modulus(random, most):
    """An irreducible modulus of degree 1 to `most`, now and then one that is not."""
    while True:
        p = random.randrange(2, 2 << most)
        if random.random() < 0.05 or is_irreducible(p):
            return p


def trial(random):
    number = random.choice([random.randrange(70), random.randrange(1 << 16), random.randrange(1 << 64)])
    words = ['trial', str(number), '0x%x' % modulus(random, 4)]
    return words + (['--terms', str(random.randint(1, 40))] if random.random() < 0.4 else []), {}


def form(random, kind):
    """A signature that has the form of a kind: its lines after the first, without the number of its version."""
    p = modulus(random, 4)
    towers = [[2, 1]] if p == 7 and random.random() < 0.5 else []
    if kind == 'composite':
        p, towers = random.choice([(m, t) for m, t in TOWERS if len(t) == 1])
    elif kind not in ('normal', 'adder'):
        towers = []
    k = max(1, p.bit_length() - 1)
    for tower in towers:
        k *= len(tower)
    lines = ['field 0x%x' % p] + ['tower ' + ' '.join('0x%x' % c for c in t) for t in towers]
    basis = 'normal:0x%x' % random.randrange(1, 1 << k) if kind == 'normal' else random.choice(['poly'] * 3 + ['normal:0x3'] * (kind == 'adder'))
    if kind == 'digit':
        size = random.choice([d for d in range(1, k + 1) if k % d == 0])
        lines += ['word A fed poly', 'word B input poly ' + nets('b', k), 'word Z output poly ' + nets('z', k)]
        return lines + ['feed d%d %d A[%d]' % (e, t, k - size * (t + 1) + e) for t in range(k // size) for e in range(size)]
    role = 'state' if kind == 'normal' else 'input'
    words = ['word %s %s %s %s' % (w, role, basis, nets(w.lower(), k)) for w in ('A', 'B')[:1 if kind == 'squarer' else 2]]
    words.insert(random.randint(0, len(words)), 'word Z output %s %s' % (basis, nets(random.choice(['z', 'w', 'ww']), k)))
    return lines + words


KINDS = ['mastrovito', 'montgomery', 'composite', 'normal', 'digit', 'adder', 'squarer']


def make(random):
    kind = random.choice(KINDS)
    lines = form(random, kind if random.random() < 0.85 else random.choice(KINDS))
    version = 2 if any(l.startswith('feed') or ' fed ' in l for l in lines) else random.randint(1, 2)
    return ['make', kind, 'sig'], {'sig': '\n'.join(['gfsig %d' % version] + lines) + '\n'}


def iso(random):
    n = random.randint(1, 4)
    while True:
        small, big = random.randrange(1 << n, 2 << n), random.randrange(1 << 2 * n, 2 << 2 * n)
        if is_irreducible(small) and is_irreducible(big):
            break
    low = [random.randrange(1 << n) for _ in range(2 if random.random() < 0.9 else random.randint(1, 3))]
    first = ['gfsig %d' % random.randint(1, 2), 'field 0x%x' % big, 'word Z output poly ' + nets('z', 2 * n)]
    second = ['gfsig %d' % random.randint(1, 2), 'field 0x%x' % small, 'tower ' + ' '.join('0x%x' % c for c in low),
              'word Z output poly ' + nets('z', 2 * n)]
    if random.random() < 0.1:
        first, second = second, first
    return ['iso', 'sig', 'second'], {'sig': '\n'.join(first) + '\n', 'second': '\n'.join(second) + '\n'}


def lift(random):
    case = Case(random, ['cycles'])
    words = sum(l.startswith('word') for l in case.lines) - 1
    count = 1 << (case.k * words)
    values = [random.randrange(case.field.size) if random.random() < 0.7 else 0 for _ in range(count)]
    style = random.choice(['0x%x', '0x%X', ' 0x%02x\t'])
    text = 'gftable 1\n' + ''.join(style % v + '\n' for v in values)
    return ['lift', 'sig', 'table'], {'sig': case.signature(), 'table': text}


def sequential(random):
    """A design, its words and its options of cycles."""
    case = Case(random, ['cycles'] if random.random() < 0.6 else [])
    design = Design(case)
    form = random.choice(['blif', 'aiger'] + ['verilog'] * (not design.latches))
    name = {'blif': 'net', 'verilog': 'net.v', 'aiger': 'net.aag'}[form]
    options = ['--cycles', str(case.cycles)] if case.cycles else []
    return case, {'sig': case.signature(), name: getattr(design, form)()}, ['sig', name], options


# A sum of more terms takes the reference minutes.
MOST = 300


def bound(random, small):
    """The option that bounds the terms: up to `small` now and then."""
    return ['--terms', str(random.randint(1, small) if random.random() < 0.3 else MOST)]


def certify(random):
    _, files, words, options = sequential(random)
    return ['certify'] + words + options + bound(random, 12), files


def certificate(random):
    """A certificate of a design, with its files, words and cycles; of version 1 in half of the cases."""
    while True:
        _, files, words, options = sequential(random)
        held = {n: t.encode('latin-1') for n, t in files.items()}
        status, text = answer(['certify'] + words + options + ['--terms', str(MOST)], held)
        if status == 0:
            break
    if random.random() < 0.5:
        text = unshared(text)
    if random.random() < 0.4:
        lines = text.split('\n')
        body = lines[2:-2]
        random.shuffle(body)
        text = '\n'.join(lines[:2] + (body if 'let' not in text else lines[2:-2]) + lines[-2:])
    files['cert'] = text
    return files, words + ['cert'], options


def unshared(text):
    """The same certificate in version 1."""
    shared, lines = {}, ['gfcert 1']
    for line in text.split('\n')[1:]:
        frame, _, rest = line.partition(' : ')
        if frame.startswith('let'):
            shared['#' + frame[4:]] = rest
        else:
            lines.append(frame + (' : ' + shared.get(rest, rest) if rest else ''))
    return '\n'.join(lines)


def verify(random):
    files, words, options = certificate(random)
    return ['verify'] + words + options + bound(random, 30), files


def upgrade(random):
    files, words, options = certificate(random)
    return ['upgrade'] + words + options, files


CALLS = {'trial': trial, 'make': make, 'iso': iso, 'lift': lift, 'certify': certify, 'verify': verify, 'upgrade': upgrade, 'compose': compose}
