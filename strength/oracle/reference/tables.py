"""The text of tables, and the polynomial of a table's function."""
import re

from .fields import Fault
from .polynomials import added, interpolated
from .signature import lines_of


def is_small(signature):
    k = signature.field.k
    return k <= 8 and k * len(signature.top.inner) <= 16


def rows(signature):
    k, m = signature.field.k, len(signature.top.inner)
    for r in range(1 << (k * m)):
        yield [(r >> (k * w)) & ((1 << k) - 1) for w in range(m)]


def table_values(signature, data):
    lines, wanted = lines_of(data), 1 << (signature.field.k * len(signature.top.inner))
    values = []
    for number in range(1, max(len(lines), wanted + 1) + 1):
        tokens = re.split(rb'[ \t]+', lines[number - 1].strip(b' \t')) if number <= len(lines) else []
        good = tokens == [b'gftable', b'1'] if number == 1 else len(tokens) == 1 and re.match(rb'0x[0-9a-fA-F]+\Z', tokens[0])
        if not good or number > wanted + 1:
            raise Fault(56, 'table line %d' % number)
        if number > 1:
            values.append(int(tokens[0], 16))
            if values[-1] >= signature.field.size:
                raise Fault(57, 'value too large at line %d' % number)
    return values


def lifted(signature, values):
    """The polynomial of a table's function: word by word, the coefficients are functions of the words that are left."""
    field = signature.field
    terms = {(): {tuple(xs): v for xs, v in zip(rows(signature), values)}}
    for _ in signature.top.inner:
        terms = {e: t for done, function in terms.items() for e, t in one_more(field, done, function).items()}
    polynomial = {}
    for exponents, function in terms.items():
        added(polynomial, exponents, function[()])
    return polynomial


def one_more(field, done, function):
    """The coefficients of one word more: functions of the words after it, by its exponent."""
    found = {}
    for rest in {xs[1:] for xs in function}:
        for e, c in interpolated(field, lambda x: function[(x,) + rest]).items():
            found.setdefault(done + (e,), {})[rest] = c
    for part in found.values():
        for rest in {xs[1:] for xs in function}:
            part.setdefault(rest, 0)
    return found
