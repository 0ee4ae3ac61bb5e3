"""Designs whose netlists are tried with `--simplify`: their Verilog, their signature, and the polynomial that they compute.

A design is a function of k that gives a `Design`. The modulus is the least irreducible number of its degree; a word in
`poly` has the nets a[0] .. of Yosys.
"""
import collections
import os
import sys

TOP = os.path.dirname(os.path.dirname(os.path.dirname(os.path.abspath(__file__))))
sys.path.append(os.path.join(TOP, 'strength', 'oracle'))

from reference.fields import is_irreducible, remainder, times

# The Verilog and its top, the lines of the signature after the first two, its modulus, the cycles, and what is printed.
Design = collections.namedtuple('Design', 'verilog words modulus cycles value')

AES = 0x11b
SBOX = 'Z = 0x5*A^254 + 0x9*A^253 + 0xf9*A^251 + 0x25*A^247 + 0xf4*A^239 + A^223 + 0xb5*A^191 + 0x8f*A^127 + 0x63'


def modulus_of(k):
    return next(f for f in range((1 << k) + 1, 2 << k, 2) if is_irreducible(f))


def word(name, role, k, nets=None, basis='poly'):
    return 'word %s %s %s %s' % (name, role, basis, ' '.join('%s[%d]' % (nets or name.lower(), i) for i in range(k)))


def factors(k, basis='poly'):
    return [word('A', 'input', k, basis=basis), word('B', 'input', k, basis=basis), word('Z', 'output', k, basis=basis)]


def ports(k, more=''):
    return '(%sinput [%d:0] a, input [%d:0] b, output %s[%d:0] z)' % (more, k - 1, k - 1, 'reg ' if more else '', k - 1)


def of_factors(k, body, more=''):
    """A multiplier without registers: the body of its module, and other modules."""
    return Design('module top%s;\n%s\nendmodule\n%s' % (ports(k), body, more), factors(k), modulus_of(k), 0, 'Z = A*B')


def hexadecimal(k, value):
    return "%d'h%x" % (k, value)


def doubled(k, name):
    """Verilog for the product of a word and x."""
    low = hexadecimal(k, modulus_of(k) ^ 1 << k)
    return "({%s[%d:0], 1'b0} ^ (%s[%d] ? %s : %s))" % (name, k - 2, name, k - 1, low, hexadecimal(k, 0))


def shift_add(k):
    """From the highest bit of b down."""
    body = '''  reg [{0}:0] s; integer i; assign z = s;
  always @* begin
    s = 0;
    for (i = {0}; i >= 0; i = i - 1) s = {1} ^ (b[i] ? a : {2});
  end'''.format(k - 1, doubled(k, 's'), hexadecimal(k, 0))
    return of_factors(k, body)


def low_first(k):
    """From the lowest bit of b up, where a is multiplied by x at each step."""
    body = '''  reg [{0}:0] s, x; integer i; assign z = s;
  always @* begin
    s = 0; x = a;
    for (i = 0; i <= {0}; i = i + 1) begin s = s ^ (b[i] ? x : {2}); x = {1}; end
  end'''.format(k - 1, doubled(k, 'x'), hexadecimal(k, 0))
    return of_factors(k, body)


def reduced(k):
    """Assignments of z by the product p of 2k - 1 bits."""
    powers = [remainder(1 << i, modulus_of(k)) for i in range(2 * k - 1)]
    return '\n'.join('  assign z[%d] = %s;' % (l, ' ^ '.join('p[%d]' % i for i, r in enumerate(powers) if r >> l & 1)) for l in range(k))


def karatsuba(k):
    """Three products of halves, each made so again while it has an even width above 4; then the reduction."""
    widths = [k]
    while widths[-1] % 2 == 0 and widths[-1] > 4:
        widths.append(widths[-1] // 2)
    modules = [halves(w) for w in widths[:-1]] + [school(widths[-1])]
    body = '  wire [%d:0] p;\n  product%d whole(a, b, p);\n%s' % (2 * k - 2, k, reduced(k))
    return of_factors(k, body, '\n'.join(modules))


def product_head(w):
    return 'module product%d(input [%d:0] a, input [%d:0] b, output [%d:0] p);\n' % (w, w - 1, w - 1, 2 * w - 2)


def school(w):
    sums = ['  assign p[%d] = %s;' % (s, ' ^ '.join('(a[%d] & b[%d])' % (i, s - i) for i in range(w) if 0 <= s - i < w)) for s in range(2 * w - 1)]
    return product_head(w) + '\n'.join(sums) + '\nendmodule'


def halves(w):
    h = w // 2
    return product_head(w) + '''  wire [{0}:0] low, high, both;
  product{1} l(a[{2}:0], b[{2}:0], low);
  product{1} h(a[{3}:{1}], b[{3}:{1}], high);
  product{1} m(a[{2}:0] ^ a[{3}:{1}], b[{2}:0] ^ b[{3}:{1}], both);
  wire [{0}:0] middle = both ^ low ^ high;
  assign p = low ^ ({{{{{4}{{1'b0}}}}, middle}} << {1}) ^ ({{{{{4}{{1'b0}}}}, high}} << {5});
endmodule'''.format(2 * h - 2, h, h - 1, w - 1, w, w)


def mastrovito(k):
    """Each bit of z is a sum of bits of b, each times a sum of bits of a."""
    f = modulus_of(k)
    column = [[remainder(1 << (i + j), f) for i in range(k)] for j in range(k)]
    lines = []
    for l in range(k):
        sums = ['(b[%d] & (%s))' % (j, ' ^ '.join('a[%d]' % i for i in range(k) if column[j][i] >> l & 1)) for j in range(k)]
        lines.append('  assign z[%d] = %s;' % (l, ' ^ '.join(sums)))
    return of_factors(k, '\n'.join(lines))


def stored(folder, name, top):
    def design(_):
        with open(os.path.join(TOP, 'examples', folder, name)) as file:
            text = file.read().replace('module %s(' % top, 'module top(')
        return Design(text, [word('A', 'input', 8), word('Z', 'output', 8)], AES, 0, SBOX)
    return design


def clocked(k, controls, body, feeds, cycles, basis='poly'):
    """A multiplier with registers: its controls, what it does at each edge, and when the controls are 1."""
    head = 'input clk, ' + ''.join('input %s, ' % c for c in controls)
    text = 'module top%s;\n  reg [%d:0] x, y;\n%s\nendmodule\n' % (ports(k, head), k - 1, body)
    lines = ['feed %s %d 1' % (net, t) for net, times_of in feeds for t in times_of]
    return Design(text, factors(k, basis) + lines, modulus_of(k), cycles, 'Z = A*B')


def lfsr(k):
    """A shift register with reset, load and enable; the highest bit of b is first."""
    body = '''  always @(posedge clk)
    if (reset) begin x <= 0; y <= 0; z <= 0; end
    else if (load) begin x <= a; y <= b; z <= 0; end
    else if (enable) begin
      z <= {0} ^ (y[{1}] ? x : {2});
      y <= {{y[{3}:0], 1'b0}};
    end'''.format(doubled(k, 'z'), k - 1, hexadecimal(k, 0), k - 2)
    return clocked(k, ['reset', 'load', 'enable'], body, [('reset', [0]), ('load', [1]), ('enable', range(2, k + 2))], k + 2)


def montgomery(k):
    """A * B / x^k by shifts to the right, with a start and a counter. All three words stand for their bits times x^-k, and
    so the output is the product."""
    f = modulus_of(k)
    # x times this is 1
    inverse = (f ^ 1) >> 1
    unit = 1
    for _ in range(k):
        unit = remainder(times(unit, inverse), f)
    elements = [remainder(times(unit, 1 << i), f) for i in range(k)]
    wide = k.bit_length()
    body = '''  reg [{0}:0] left;
  wire [{1}:0] t = z ^ (y[0] ? x : {2});
  always @(posedge clk)
    if (start) begin x <= a; y <= b; z <= 0; left <= {3}; end
    else if (left != 0) begin
      z <= (t ^ (t[0] ? {4} : {2})) >> 1 | (t[0] ? {5} : {2});
      y <= y >> 1;
      left <= left - 1;
    end'''.format(wide - 1, k - 1, hexadecimal(k, 0), hexadecimal(wide, k), hexadecimal(k, f ^ 1 << k), hexadecimal(k, 1 << (k - 1)))
    return clocked(k, ['start'], body, [('start', [0])], k + 1, 'list:' + ','.join('0x%x' % e for e in elements))


def counter(k):
    """Of eight bits, without an input; it began with 0."""
    cycles = 21
    text = 'module top(input clk, output reg [7:0] z = 0);\n  always @(posedge clk) z <= z + 1;\nendmodule\n'
    return Design(text, [word('Z', 'output', 8)], AES, cycles, 'Z = 0x%x' % cycles)


# Each design, with the k at which it is tried.
DESIGNS = {
    'shift_add': (shift_add, (8, 16, 24, 32, 64)),
    'low_first': (low_first, (8, 16, 24, 32)),
    'karatsuba': (karatsuba, (8, 16, 24, 32, 64)),
    'mastrovito': (mastrovito, (8, 16, 24, 32, 64)),
    'sbox_tower': (stored('aes_sbox', 'tower.v', 'tower'), (8,)),
    'sbox_cases': (stored('rtl', 'sbox.v', 'sbox'), (8,)),
    'lfsr': (lfsr, (8, 16, 32, 64)),
    'montgomery': (montgomery, (8, 16, 32)),
    'counter': (counter, (8,)),
}

# How a netlist is made of a design, by `make`.
FLOWS = ('plain', 'nand', 'cells', 'strash', 'abc_nand', 'resyn', 'dch')


def signature_text(design):
    version = 2 if any(line.startswith('feed') for line in design.words) else 1
    return '\n'.join(['gfsig %d' % version, 'field 0x%x' % design.modulus] + design.words) + '\n'
