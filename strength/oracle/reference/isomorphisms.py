"""The isomorphism from a tower of degree 2 to a field of as many bits, by least roots."""
from .fields import Fault


def unfit():
    return Fault(45, 'the fields do not fit')


def images(first, second):
    """The images of the powers of 2 of the second signature's tower in the first one's field."""
    if first.towers or len(second.towers) != 1:
        raise unfit()
    big, over = first.field, second.field.quotient
    if over.m != 2 or over.n > 16 or big.k != 2 * over.n:
        raise unfit()
    x = least_root(big, second.modulus, over.n)
    carried = [element(big, x, c) for c in over.lower]
    y = least_of_two(big, carried[1], carried[0])
    low = [big.power(x, i) for i in range(over.n)]
    return low + [big.mul(y, a) for a in low]


def element(big, x, number):
    """The element of the base with this number, carried over: the sum of the powers of x at its bits."""
    total, power = 0, 1
    while number:
        total, number, power = total ^ (power if number & 1 else 0), number >> 1, big.mul(power, x)
    return total


def cleared(kept, value, argument):
    """A value with its argument, after those that are kept took away their leading bits."""
    for lead, other, of in kept:
        if value & lead:
            value, argument = value ^ other, argument ^ of
    return value, argument


def subfield(big, n):
    """A basis of the elements that n squares leave as they are."""
    # the kernel of a -> a^(2^n) + a, by elimination of pairs of a value and its argument
    kept, kernel = [], []
    for i in range(big.k):
        value, argument = cleared(kept, big.square_often(1 << i, n) ^ (1 << i), 1 << i)
        if value:
            kept.append((1 << (value.bit_length() - 1), value, argument))
        else:
            kernel.append(argument)
    return kernel


def least_root(big, modulus, n):
    """The least root of the modulus of degree n: one root, and then the least of its conjugates."""
    basis = subfield(big, n)
    for number in range(1 << len(basis)):
        candidate = 0
        for i, b in enumerate(basis):
            candidate ^= b if (number >> i) & 1 else 0
        if element(big, candidate, modulus) == 0:
            return min(big.square_often(candidate, j) for j in range(n))
    raise AssertionError('no root')


def least_of_two(big, c1, c0):
    """The least root of Y^2 + c1*Y + c0: squaring and multiplying add up bit by bit."""
    rows = [(big.mul(1 << i, 1 << i) ^ big.mul(c1, 1 << i), 1 << i) for i in range(big.k)]
    kept = []
    for row in rows:
        value, argument = cleared(kept, *row)
        if value:
            kept.append((1 << (value.bit_length() - 1), value, argument))
    wanted, found = cleared(kept, c0, 0)
    assert wanted == 0
    return min(found, found ^ c1)
