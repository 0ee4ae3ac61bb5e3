"""What the program answers to its words, over files: a status and a text."""
import itertools
import re

from . import certificates, isomorphisms
from .aiger import read_aiger
from .blif import read_blif
from .composition import Composition
from .fields import Fault
from .makers import KINDS, make
from .nets import Bound, Flat, Job
from .polynomials import Bounded, Variables, cuts, expanded, in_words, words_text
from .signature import Signature
from .simpler import simpler
from .specification import Spec
from .tables import is_small, lifted, rows, table_values
from .verilog import read_verilog

WORDS = Fault(1, 'words')
ALL = ('--terms', '--cycles', '--simplify')
OPTIONS = {
    'bits': ALL, 'abstract': ALL, 'check': ALL, 'same': ALL,
    'eval': ('--cycles',), 'table': ('--cycles',), 'lift': (), 'iso': (), 'make': (),
    'trial': ('--terms',), 'compose': ('--terms',), 'certify': ('--terms', '--cycles'), 'verify': ('--terms', '--cycles'),
    'upgrade': ('--cycles',),
}
OPERANDS = {'bits': 2, 'abstract': 2, 'check': 3, 'same': 3, 'table': 2, 'lift': 2, 'iso': 2, 'make': 2, 'trial': 2, 'compose': 2,
            'certify': 2, 'verify': 3, 'upgrade': 3}
LIMITS = {'--terms': (1, 262144), '--cycles': (0, 4096)}
VERIFY = (1, 1048576)
VALUE = re.compile(r'0x[0-9a-fA-F]{1,32}\Z')
NUMBER = re.compile(r'(0|[1-9][0-9]*)\Z')


def answer(words, files):
    """The status and the text, by name and bytes of the files that there are."""
    try:
        return run(words, files)
    except Fault as fault:
        return (3 if fault.number == 3 else 2), 'fault %02d: %s\n' % (fault.number, fault)


def run(words, files):
    command, operands, options = spelled(words)
    if command == 'trial':
        return answer_trial(operands, options)
    if command == 'make':
        operands = operands[::-1]
    signature = Signature(read(operands[0], files))
    if command in ('lift', 'table') and not is_small(signature):
        raise Fault(47, 'the signature is not small')
    return globals()['answer_' + command](signature, operands[1:], options, files)


def spelled(words):
    split = next((i for i, w in enumerate(words) if w.startswith('--')), len(words))
    command, operands, rest = words[:1], words[1:split], words[split:]
    if not command or command[0] not in OPTIONS or any(re.search(r'[\x00-\x1f\x7f]', w) or not w for w in operands):
        raise WORDS
    command = command[0]
    if command == 'eval':
        if len(operands) < 2 or not all(VALUE.match(v) for v in operands[2:]):
            raise WORDS
    elif len(operands) != OPERANDS[command]:
        raise WORDS
    if not fits(command, operands):
        raise WORDS
    given = read_options(command, rest)
    return command, operands, {'--terms': VERIFY[1] if command == 'verify' else 65536, '--cycles': 0, '--simplify': False} | given


def read_options(command, rest):
    """The options that are given, each once: two with a number behind them, and one alone."""
    given, rest = {}, iter(rest)
    for name in rest:
        if name not in OPTIONS[command] or name in given:
            raise WORDS
        given[name] = True if name == '--simplify' else number_of(command, name, next(rest, ''))
    return given


def number_of(command, name, value):
    least, most = VERIFY if (command, name) == ('verify', '--terms') else LIMITS[name]
    if not NUMBER.match(value) or not least <= int(value) <= most:
        raise WORDS
    return int(value)


def fits(command, operands):
    """What else a command asks of its operands."""
    if command == 'make':
        return operands[0] in KINDS
    if command == 'trial':
        return bool(NUMBER.match(operands[0])) and int(operands[0]) < 1 << 64 and bool(VALUE.match(operands[1]))
    return command != 'compose' or not operands[1].endswith(('.v', '.aag'))


def read(name, files):
    if name not in files:
        raise Fault(10, name + ' is absent')
    if len(files[name]) > 67108864:
        raise Fault(11, name + ' has more than 67108864 bytes')
    return files[name]


def bound_net(signature, name, files):
    data = read(name, files)
    reader = read_verilog if name.endswith('.v') else read_aiger if name.endswith('.aag') else read_blif
    return Bound(signature.top, signature.feeds, reader(data, name))


def job_of(signature, bound, options):
    job = Job(signature.field, bound, options['--cycles'])
    job.check_limits()
    return job


def one_job(signature, operands, options, files):
    return job_of(signature, bound_net(signature, operands[0], files), options)


def called(signature):
    return signature.top.output.name.decode()


def flat_of(job, options):
    """The unrolled net, made simpler where that is asked for."""
    flat = Flat(job)
    if options['--simplify']:
        flat.net = simpler(flat.net, flat.nets[flat.output.name])
    return flat


def answer_bits(signature, operands, options, files):
    flat = flat_of(one_job(signature, operands, options, files), options)
    last = cuts(flat, Bounded(options['--terms']))
    return 0, '%s = %s\n' % (called(signature), in_bits_text(flat, last))


def in_bits_text(flat, last):
    variables = Variables(flat)
    zero = (0,) * len(flat.words)
    return variables.text({(zero, frozenset(variables.rank[n] for n in m)): c for m, c in last.items()})


def abstracted(signature, job, options):
    """The unrolled net, its last cut, and the line of the polynomial in words."""
    flat = flat_of(job, options)
    last = cuts(flat, Bounded(options['--terms']))
    polynomial = in_words(flat, last, Bounded(options['--terms']))
    return flat, last, '%s = %s\n' % (called(signature), Variables(flat).text(polynomial))


def answer_abstract(signature, operands, options, files):
    return 0, abstracted(signature, one_job(signature, operands, options, files), options)[2]


def inputs_by_ones(field, words):
    """All inputs, by the number of bits that are 1 and then by the rising list of their ranks."""
    ranks = range(field.k * len(words))
    for count in range(len(ranks) + 1):
        yield from itertools.combinations(ranks, count)


def element_at(field, word, w, ones):
    total = 0
    for i, beta in enumerate(word.elements):
        total ^= beta if field.k * w + i in ones else 0
    return total


def difference(field, words, left, right, names, polynomials):
    """Nothing where two functions agree everywhere, else the lines of the first input at which they differ. Where there
    are many inputs, whether they agree, and where they differ first, is told by their polynomials in sets of bits."""
    candidates = inputs_by_ones(field, words)
    if field.k * len(words) > 12:
        p, q = polynomials()
        candidates = sorted((sorted(m) for m in set(p) | set(q) if p.get(m, 0) != q.get(m, 0)), key=lambda m: (len(m), m))
    for ones in candidates:
        xs = [element_at(field, word, w, ones) for w, word in enumerate(words)]
        a, b = left(xs), right(xs)
        if a != b:
            lines = ['%s = 0x%x' % (w.name.decode(), x) for w, x in zip(words, xs)]
            return '\n'.join(lines + ['%s 0x%x' % pair for pair in zip(names, (a, b))]) + '\n'
    return None


def by_rank(flat, last):
    """The last cut in sets of ranks."""
    rank = Variables(flat).rank
    return {frozenset(rank[n] for n in m): c for m, c in last.items()}


def answer_same(signature, operands, options, files):
    bounds = [bound_net(signature, name, files) for name in operands]
    jobs = [job_of(signature, bound, options) for bound in bounds]
    last = []
    for job, prefix in zip(jobs, ('', 'second ')):
        flat = flat_of(job, options)
        last.append(by_rank(flat, cuts(flat, Bounded(options['--terms'], prefix))))
    told = difference(signature.field, signature.top.inner, jobs[0].output_at, jobs[1].output_at, ('first', 'second'), lambda: last)
    return (1, 'differ\n' + told) if told else (0, 'same\n')


def answer_check(signature, operands, options, files):
    bound = bound_net(signature, operands[0], files)
    spec = Spec(read(operands[1], files), signature.field, signature.top.output.name, signature.top.inner)
    job = job_of(signature, bound, options)
    flat, last, line = abstracted(signature, job, options)
    wanted = expanded(flat, spec, Bounded(options['--terms']))
    told = difference(signature.field, signature.top.inner, job.output_at, spec.value, ('netlist', 'specification'),
                      lambda: (by_rank(flat, last), wanted))
    return (1, 'rejected\n' + line + told) if told else (0, 'accepted\n' + line)


def answer_eval(signature, operands, options, files):
    bound = bound_net(signature, operands[0], files)
    values, words = operands[1:], signature.top.inner
    if len(values) != len(words):
        raise Fault(48, '%d values for %d words' % (len(values), len(words)))
    xs = [int(v, 16) for v in values]
    wrong = next((i for i, x in enumerate(xs, 1) if x >= signature.field.size), None)
    if wrong:
        raise Fault(49, 'value %d is too large' % wrong)
    return 0, '%s = 0x%x\n' % (called(signature), job_of(signature, bound, options).output_at(xs))


def answer_table(signature, operands, options, files):
    job = one_job(signature, operands, options, files)
    return 0, 'gftable 1\n' + ''.join('0x%x\n' % job.output_at(xs) for xs in rows(signature))


def answer_lift(signature, operands, options, files):
    polynomial = lifted(signature, table_values(signature, read(operands[0], files)))
    return 0, '%s = %s\n' % (called(signature), words_text(signature.top.inner, polynomial))


def answer_iso(signature, operands, options, files):
    try:
        second = Signature(read(operands[0], files))
    except Fault as fault:
        raise Fault(fault.number, ('second ' if 20 <= fault.number < 30 else '') + fault.text)
    return 0, ''.join('0x%x\n' % image for image in isomorphisms.images(signature, second))


def answer_make(signature, operands, options, files):
    return 0, make(operands[0], signature).text().decode()


def trial_signature(modulus):
    nets = [' '.join('%s%d' % (letter, i) for i in range(modulus.bit_length() - 1)) or 'none' for letter in 'abz']
    roles = ('A input', 'B input', 'Z output')
    return 'gfsig 1\nfield 0x%x\n' % modulus + ''.join('word %s poly %s\n' % pair for pair in zip(roles, nets))


def answer_trial(operands, options):
    number, modulus = int(operands[0]), int(operands[1], 16)
    signature = Signature(trial_signature(modulus).encode())
    k, made = signature.field.k, make('mastrovito', signature)
    position, index = number % (k * k), number // (k * k) % 4
    made.turn(position, index)
    bound = Bound(signature.top, [], read_blif(made.text(), 'made'))
    job = Job(signature.field, bound, 0)
    flat = Flat(job)
    last = cuts(flat, Bounded(options['--terms']))
    terms = len(in_words(flat, last, Bounded(options['--terms'])))
    spec = Spec(b'Z = A*B', signature.field, b'Z', signature.top.inner)
    wanted = expanded(flat, spec, Bounded(options['--terms']))
    told = difference(signature.field, signature.top.inner, job.output_at, spec.value, ('netlist', 'product'),
                      lambda: (by_rank(flat, last), wanted))
    head = (modulus, len(made.gates), position, index, terms)
    return 0, 'modulus 0x%x\ngates %d\nchanged %d index %d\nterms %d\n' % head + told


def answer_compose(signature, operands, options, files):
    composition = Composition(read(operands[0], files), operands[0], signature)
    polynomial = composition.polynomial(options['--terms'])
    return 0, '%s = %s\n' % (called(signature), words_text(signature.top.inner, polynomial))


def answer_certify(signature, operands, options, files):
    flat = Flat(one_job(signature, operands, options, files))
    return 0, certificates.written(flat, certificates.certified(flat, options['--terms']))


def with_certificate(signature, operands, options, files):
    """The unrolled net, and the text of the certificate, which is read before the cycles are laid out."""
    bound = bound_net(signature, operands[0], files)
    data = read(operands[1], files)
    return Flat(job_of(signature, bound, options)), data


def answer_verify(signature, operands, options, files):
    flat, data = with_certificate(signature, operands, options, files)
    claim, remaining = certificates.checked(data, flat, Bounded(options['--terms']))
    if remaining:
        return 1, 'invalid\nremaining %d terms\n' % remaining
    return 0, 'valid\n%s = %s\n' % (called(signature), Variables(flat).text(claim))


def answer_upgrade(signature, operands, options, files):
    flat, data = with_certificate(signature, operands, options, files)
    return 0, certificates.written(flat, certificates.Reader(data, flat).certificate)
