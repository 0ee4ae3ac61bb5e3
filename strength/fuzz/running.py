"""What the scripts of this folder share: one run of the program, and its table of faults."""
import os
import re
import resource
import signal
import subprocess
import sys
import tempfile
import threading
import time

HERE = os.path.dirname(os.path.abspath(__file__))
TOP = os.path.dirname(os.path.dirname(HERE))

# The line of each fault, as docs/COMMANDS.md has it, and the status it ends with.
TOKEN, FILE, COUNT = rb'[!-~]+', rb'[^\n]+', rb'[0-9]+'
BOUND = rb' has C terms, bound C'
LINES = {
    b'01': [rb'words'],
    b'03': [rb'cut C' + BOUND, rb'second cut C' + BOUND, rb'word T term C bit C' + BOUND, rb'word T sum C' + BOUND,
            rb'specification term C factor C' + BOUND, rb'specification sum C' + BOUND, rb'certificate line C' + BOUND,
            rb'block T cut C' + BOUND, rb'block T word T term C bit C' + BOUND, rb'block T word T sum C' + BOUND,
            rb'instance C term C factor C' + BOUND, rb'instance C sum C' + BOUND],
    b'10': [rb'F is absent'],
    b'11': [rb'F has more than 67108864 bytes'],
    b'12': [rb'no fed word at line C', rb'feed twice at line C'],
    b'13': [rb'feed at line C is no free input in F'],
    b'20': [rb'signature line C'],
    b'21': [rb'modulus degree'],
    b'22': [rb'the modulus is not irreducible', rb'the tower polynomial is not irreducible'],
    b'23': [rb'dependent basis at line C'],
    b'24': [rb'basis at line C'],
    b'25': [rb'tower'],
    b'26': [rb'bits at line C'],
    b'27': [rb'name twice at line C'],
    b'28': [rb'no output word', rb'no output word in block T', rb'second output word at line C'],
    b'29': [rb'ninth word at line C'],
    b'30': [rb'netlist line C in F'],
    b'31': [rb'T at line C in F'],
    b'32': [rb'no model in F', rb'model twice at line C in F', rb'no such model at line C in F', rb'no such formal at line C in F',
            rb'formal twice at line C in F', rb'formal missing at line C in F', rb'model T contains itself in F',
            rb'more than 64 models deep in F'],
    b'33': [rb'undeclared at line C in F', rb'index at line C in F', rb'redeclared at line C in F'],
    b'34': [rb'net T is driven twice in F'],
    b'35': [rb'net T is not driven in F'],
    b'36': [rb'loop of C nets through T in F'],
    b'37': [rb'C inputs at line C in F'],
    b'38': [rb'too many nets in F', rb'too many gates in F', rb'too many instances in F'],
    b'39': [rb'no net for T in F', rb'T is no input in F', rb'T is no latch in F', rb'net T stands twice in F',
            rb'input T is in no word in F', rb'latch T has no start in F'],
    b'40': [rb'syntax at byte C'],
    b'41': [rb'unknown word at byte C'],
    b'42': [rb'number at byte C'],
    b'46': [rb'literal at line C in F', rb'defined twice at line C in F', rb'undefined at line C in F', rb'name twice at line C in F'],
    b'43': [rb'the signature does not fit T'],
    b'44': [rb'gate or latch at line C of the top', rb'no block T', rb'block T is no net', rb'block T has a latch', rb'block T does not bind',
            rb'instance C word T', rb'output word', rb'loop through instance C', rb'the signature has a feed'],
    b'45': [rb'the fields do not fit'],
    b'47': [rb'the signature is not small'],
    b'48': [rb'C values for C words'],
    b'49': [rb'value C is too large'],
    b'50': [rb'certificate line C'],
    b'51': [rb'no such net at line C'],
    b'52': [rb'no such bit at line C'],
    b'53': [rb'no gate at line C'],
    b'54': [rb'no end line'],
    b'55': [rb'no such let at line C'],
    b'56': [rb'table line C'],
    b'57': [rb'value too large at line C'],
}

# What each command writes with status 0 or 1.
NAME, ELEMENT = rb'[A-Za-z][A-Za-z0-9_]*', rb'0x[0-9a-f]+'
POLYNOMIAL = NAME + rb' = [^\n]+\n'
DIFFERENCE = rb'(' + NAME + rb' = ' + ELEMENT + rb'\n)*'
CERTIFICATE = rb'gfcert 2\nclaim ' + POLYNOMIAL + rb'((let|net|bit) [^\n]+\n)*end\n'
FORMS = {
    'abstract': {0: POLYNOMIAL}, 'bits': {0: POLYNOMIAL}, 'eval': {0: NAME + rb' = ' + ELEMENT + rb'\n'},
    'compose': {0: POLYNOMIAL}, 'lift': {0: POLYNOMIAL}, 'certify': {0: CERTIFICATE}, 'upgrade': {0: CERTIFICATE},
    'check': {0: rb'accepted\n' + POLYNOMIAL,
              1: rb'rejected\n' + POLYNOMIAL + DIFFERENCE + rb'netlist ' + ELEMENT + rb'\nspecification ' + ELEMENT + rb'\n'},
    'same': {0: rb'same\n', 1: rb'differ\n' + DIFFERENCE + rb'first ' + ELEMENT + rb'\nsecond ' + ELEMENT + rb'\n'},
    'verify': {0: rb'valid\n' + POLYNOMIAL, 1: rb'invalid\nremaining [0-9]+ terms\n'},
    'make': {0: rb'\.model make\n([^\n]*\n)+\.end\n'}, 'table': {0: rb'gftable 1\n(' + ELEMENT + rb'\n)+'},
    'iso': {0: rb'(' + ELEMENT + rb'\n)+'}, 'trial': {0: rb'modulus ' + ELEMENT + rb'\n([^\n]+\n){7}'},
}


def pattern_of(text):
    """The pattern of a line's text, in which C, F and T stand for a count, a file and a token."""
    words = {b'C': COUNT, b'F': FILE, b'T': TOKEN}
    return re.compile(b' '.join(words.get(word, word) for word in text.split(b' ')))


PATTERNS = {number: [pattern_of(text) for text in texts] for number, texts in LINES.items()}


def fault_of(line):
    """The number of the fault whose line this is, without its LF; none where it is no fault's line."""
    number, text = line[6:8], line[10:]
    # of the second signature of `iso`
    text = text.removeprefix(b'second ') if b'20' <= number < b'30' else text
    if line[:6] == b'fault ' and line[8:10] == b': ' and number in PATTERNS:
        if any(pattern.fullmatch(text) for pattern in PATTERNS[number]):
            return number.decode()
    return None


class Timed:
    """A run of a command: its status (None over the limit), seconds, those of a processor, MiB at most."""

    def __init__(self, words, limit, out, err=None, patience=1):
        begun = time.perf_counter()
        child = subprocess.Popen(words, stdin=subprocess.DEVNULL, stdout=out, stderr=err, start_new_session=True)
        # of a processor no more than the limit, and in all so many times longer
        resource.prlimit(child.pid, resource.RLIMIT_CPU, (limit, limit + 1))
        late = []
        timer = threading.Timer(patience * limit, lambda: (late.append(1), os.killpg(child.pid, signal.SIGKILL)))
        timer.start()
        try:
            _, status, usage = os.wait4(child.pid, 0)
        finally:
            timer.cancel()
        self.seconds = time.perf_counter() - begun
        self.processor = usage.ru_utime + usage.ru_stime
        child.returncode = os.waitstatus_to_exitcode(status)
        self.status = None if late or child.returncode == -signal.SIGXCPU else child.returncode
        self.mebibytes = usage.ru_maxrss / 1024


# Other work on the machine may make a run take so many times longer than on a processor of its own.
PATIENCE = 60


class Ended(Timed):
    """What a run of the program did, and what it wrote."""

    def __init__(self, words, limit, kept):
        for file in kept:
            file.seek(0)
            file.truncate()
        super().__init__(words, limit, *kept, patience=PATIENCE)
        self.output, self.error = (self.read(file) for file in kept)

    @staticmethod
    def read(file):
        file.seek(0)
        return file.read()

    def wrong(self, command='abstract'):
        """What of the run is against docs/COMMANDS.md, whatever its files hold; None where nothing is."""
        if self.status is None:
            return 'over the limit'
        if self.error:
            return 'writes to standard error'
        if self.status in FORMS[command]:
            return None if re.fullmatch(FORMS[command][self.status], self.output) else 'no output of %s' % command
        if self.status not in (2, 3):
            return 'status %d' % self.status
        if self.output.count(b'\n') != 1 or not self.output.endswith(b'\n'):
            return 'not one line'
        fault = fault_of(self.output[:-1])
        if fault is None:
            return 'no line of a fault'
        return None if (self.status == 3) == (fault == '03') else 'fault %s with status %d' % (fault, self.status)

    def answer(self):
        """The status and the first bytes of what was written, for a reader."""
        return '%s %r' % ('late' if self.status is None else self.status, self.output[:100])


class Runner:
    """Runs the program with words, over and over."""

    def __init__(self, program, limit):
        self.program, self.limit = program, limit
        self.kept = (tempfile.TemporaryFile(), tempfile.TemporaryFile())

    def run(self, words):
        return Ended([self.program] + words, self.limit, self.kept)


# Operands of a command over files that are not there; other commands take two of these.
SAMPLES = {'make': ['adder', 'none'], 'trial': ['0', '0x5'], 'check': ['none'] * 3, 'same': ['none'] * 3, 'verify': ['none'] * 3,
           'upgrade': ['none'] * 3}


def is_known(program, command):
    """Whether the program knows a command: it does not answer the fault of words."""
    words = [program, command] + SAMPLES.get(command, ['none'] * 2)
    return subprocess.run(words, capture_output=True).stdout != b'fault 01: words\n'


def program_of(words, usage):
    """The program that the words name, the launcher at the top where they name none; it is run once, so that it is built."""
    if len(words) > 1 or words[:1] and words[0].startswith('-'):
        sys.exit(usage)
    program = os.path.abspath(words[0] if words else os.path.join(TOP, 'gfabs'))
    # without words it refuses them
    if subprocess.run([program], stdout=subprocess.DEVNULL).returncode != 2:
        sys.exit('%s does not run' % program)
    built = os.path.join(TOP, 'crates', 'gfabs', 'out', 'gfabs')
    return program if words else built


def with_number(words, option, number):
    """The words without an option and its number at their end, and that number, or this one where it is not there."""
    if words[-2:-1] == [option] and words[-1].isdecimal():
        return words[:-2], int(words[-1])
    return words, number


def with_word(words, option):
    """The words without an option and the word behind it, and that word, or an empty one where the option is not there."""
    if option in words[:-1]:
        at = words.index(option)
        return words[:at] + words[at + 2:], words[at + 1]
    return words, ''


def bound_memory(gibibytes):
    """No program that is run from here on gets more; it ends with status 5 where it wants more."""
    _, hard = resource.getrlimit(resource.RLIMIT_AS)
    resource.setrlimit(resource.RLIMIT_AS, (gibibytes << 30, hard))
