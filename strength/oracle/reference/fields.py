"""Fields of 2^k elements as numbers, towers of one and two steps, and bases."""
import sys

# numbers of texts may have any length
sys.set_int_max_str_digits(0)


class Fault(Exception):
    """A refusal: its number, and its text without the number."""

    def __init__(self, number, text):
        super().__init__(text)
        self.number, self.text = number, text


def degree(p):
    return p.bit_length() - 1


def remainder(a, b):
    width = b.bit_length()
    over = a.bit_length() - width
    while over >= 0:
        a ^= b << over
        over = a.bit_length() - width
    return a


def times(a, b):
    product = 0
    while b:
        if b & 1:
            product ^= a
        a, b = a << 1, b >> 1
    return product


def divisor(a, b):
    """The greatest common divisor."""
    while b:
        a, b = b, remainder(a, b)
    return a


def is_irreducible(p):
    """No irreducible polynomial of degree d up to half of its own divides it: these divide x^(2^d) + x."""
    power = 2
    for _ in range(degree(p) // 2):
        power = remainder(times(power, power), p)
        if divisor(p, power ^ 2) != 1:
            return False
    return degree(p) >= 1


def is_prime(n):
    return n > 1 and all(n % d for d in range(2, n))


class Prime:
    """The field of polynomials over 0 and 1 modulo an irreducible one."""

    def __init__(self, modulus):
        self.modulus, self.k = modulus, degree(modulus)

    def product(self, a, b):
        return remainder(times(a, b), self.modulus)


class Over:
    """The quotient of the polynomials over a field by a monic one; its lower coefficients are given, lowest first."""

    def __init__(self, base, coefficients):
        self.base, self.lower = base, coefficients
        self.m, self.n = len(coefficients), base.k
        self.k = self.m * self.n

    def split(self, a):
        return [(a >> (self.n * i)) & ((1 << self.n) - 1) for i in range(self.m)]

    def product(self, a, b):
        sums = [0] * (2 * self.m)
        for i, x in enumerate(self.split(a)):
            for j, y in enumerate(self.split(b)):
                sums[i + j] ^= self.base.product(x, y)
        for d in range(2 * self.m - 1, self.m - 1, -1):
            for i, c in enumerate(self.lower):
                sums[d - self.m + i] ^= self.base.product(sums[d], c)
        return sum(c << (self.n * i) for i, c in enumerate(sums[:self.m]))

    def is_reducible(self):
        """Of degree 2 and 3 it is so where it has a root; else a divisor is looked for, or Rabin's test is made."""
        if self.n * (self.m // 2) <= 12:
            return self.has_divisor()
        return not self.passes_rabin()

    def passes_rabin(self):
        """It divides Y^(q^m) + Y, and shares nothing with Y^(q^(m/p)) + Y for a prime p that divides m."""
        y = 1 << self.n
        power, shares = y, []
        for d in range(1, self.m + 1):
            for _ in range(self.n):
                power = self.product(power, power)
            if d < self.m and self.m % d == 0 and is_prime(self.m // d):
                shares.append(power ^ y)
        return power == y and all(self.has_inverse(a) for a in shares)

    def has_inverse(self, a):
        """Whether the products with it, as a matrix over 0 and 1, have full rank."""
        return independent([self.product(a, 1 << i) for i in range(self.k)])

    def has_divisor(self):
        """A monic polynomial of degree 1 to half of its own divides it."""
        q = 1 << self.n
        for d in range(1, self.m // 2 + 1):
            for number in range(q ** d):
                divisor = [(number // q ** i) % q for i in range(d)]
                rest = self.lower + [1]
                for top in range(self.m, d - 1, -1):
                    for i, c in enumerate(divisor):
                        rest[top - d + i] ^= self.base.product(rest[top], c)
                    rest[top] = 0
                if not any(rest):
                    return True
        return False


class Field:
    """A field with products looked up where it is small."""

    def __init__(self, quotient):
        self.quotient, self.k = quotient, quotient.k
        self.size = 1 << self.k
        self.known, self.mask = {}, None

    def mul(self, a, b):
        if self.k > 10:
            return self.quotient.product(a, b)
        if a < b:
            a, b = b, a
        found = self.known.get((a, b))
        if found is None:
            found = self.known[a, b] = self.quotient.product(a, b)
        return found

    def square_often(self, a, times):
        for _ in range(times):
            a = self.mul(a, a)
        return a

    def trace(self, a):
        """The sum of its k conjugates, which is additive: the bits of a mask are the traces of the powers of 2."""
        if self.mask is None:
            self.mask = sum(self.trace_by_squares(1 << i) << i for i in range(self.k))
        return bin(a & self.mask).count('1') & 1

    def trace_by_squares(self, a):
        total = 0
        for _ in range(self.k):
            total, a = total ^ a, self.mul(a, a)
        return total

    def power(self, a, e):
        result = 1
        while e:
            if e & 1:
                result = self.mul(result, a)
            a, e = self.mul(a, a), e >> 1
        return result


FIELDS = {}


def field_of(modulus, tower, upper):
    """The field that a signature names, or the first fault of its numbers."""
    key = (modulus, tuple(tower), tuple(upper))
    if key not in FIELDS:
        FIELDS[key] = Field(quotient_of(modulus, tower, upper))
    return FIELDS[key]


def quotient_of(modulus, tower, upper):
    if not 1 <= degree(modulus) <= 64:
        raise Fault(21, 'modulus degree')
    if not is_irreducible(modulus):
        raise Fault(22, 'the modulus is not irreducible')
    quotient = Prime(modulus)
    for coefficients in (tower, upper):
        if coefficients:
            quotient = step(quotient, coefficients)
    return quotient


def step(base, coefficients):
    if len(coefficients) < 2 or base.k * len(coefficients) > 64 or any(c >> base.k for c in coefficients):
        raise Fault(25, 'tower')
    over = Over(base, list(coefficients))
    if over.is_reducible():
        raise Fault(22, 'the tower polynomial is not irreducible')
    return over


def basis_of(field, text, line):
    """The elements of a basis as a signature writes it: ('poly',), ('normal', gamma) or ('list', elements)."""
    if text[0] == 'poly':
        return [1 << i for i in range(field.k)]
    given = [text[1]] if text[0] == 'normal' else text[1]
    if (text[0] == 'list' and len(given) != field.k) or any(e >> field.k for e in given):
        raise Fault(24, 'basis at line %d' % line)
    elements = list(given)
    while len(elements) < field.k:
        elements.append(field.mul(elements[-1], elements[-1]))
    if not independent(elements):
        raise Fault(23, 'dependent basis at line %d' % line)
    return elements


def independent(elements):
    kept = []
    for e in elements:
        for other in kept:
            e = min(e, e ^ other)
        if not e:
            return False
        kept.append(e)
    return True


def element_of(basis, bits):
    element = 0
    for beta, bit in zip(basis, bits):
        element ^= beta if bit else 0
    return element


def solved(rows, wanted):
    """The set of rows, as a number, whose sum is this one; the rows are independent, and there are enough."""
    kept = []
    for i, row in enumerate(rows):
        mask = 1 << i
        for lead, other, others in kept:
            if row & lead:
                row, mask = row ^ other, mask ^ others
        kept.append((1 << degree(row), row, mask))
    found = 0
    for lead, row, mask in kept:
        if wanted & lead:
            wanted, found = wanted ^ row, found ^ mask
    return found


BITS = {}


def bits_of(basis, element):
    """The bits of the one choice of basis elements with this sum."""
    key, k = tuple(basis), len(basis)
    if k > 10:
        found = solved(basis, element)
        return [(found >> i) & 1 for i in range(k)]
    if key not in BITS:
        BITS[key] = {element_of(basis, [(n >> i) & 1 for i in range(k)]): [(n >> i) & 1 for i in range(k)]
                     for n in range(1 << k)}
    return BITS[key][element]


def dual_of(field, basis):
    """The elements whose products with those of the basis have the trace 1 at their own place, and else 0."""
    traces = [sum(field.trace(field.mul(a, b)) << j for j, b in enumerate(basis)) for a in basis]
    return [element_of(basis, [(s >> i) & 1 for i in range(field.k)]) for s in (solved(traces, 1 << i) for i in range(field.k))]
