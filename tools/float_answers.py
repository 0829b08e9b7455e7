#!/usr/bin/env python3
"""Writes the questions and answers of crates/float_check: src/cases.rt and stdout.

    tools/float_answers.py            writes the files
    tools/float_answers.py --check    compares them with what it would write; status 1 where one differs

It uses whole numbers only: a finite float is a number of units of 2^-149,
a root is found by math.isqrt and rounded to the nearest float, ties to the even one, by comparing squares.
Nothing here is taken from the crate `float`.
"""
import io
import math
import sys
from decimal import Decimal, getcontext
from fractions import Fraction
from pathlib import Path

sys.path.insert(0, str(Path(__file__).resolve().parent))
import made

getcontext().prec = 200
INF = 0x7F800000
SIGN = 0x80000000
NAN = 0x7FC00000  # stands for every NaN


def is_nan(n):
    return n & 0x7FFFFFFF > INF


def units(n):
    """The size of a finite pattern in units of 2^-149."""
    field, digits = (n >> 23) & 255, n & 0x7FFFFF
    return digits if field == 0 else (digits + 0x800000) << (field - 1)


def pattern(u):
    """The pattern of a number of units that a float holds."""
    drop = max(0, u.bit_length() - 24)
    digits = u >> drop
    assert digits << drop == u
    return digits if digits < 0x800000 else ((drop + 1) << 23) + (digits - 0x800000)


def root(n):
    if is_nan(n):
        return NAN
    if n & 0x7FFFFFFF == 0:
        return n  # both zeros
    if n & SIGN:
        return NAN
    if n == INF:
        return INF
    square = units(n) << 149  # of the root, in units
    whole = math.isqrt(square)
    step = 1 << max(0, whole.bit_length() - 24)
    down = whole - whole % step
    # the root against the middle of down and down + step, both doubled
    middle = 2 * down + step
    if 4 * square > middle * middle:
        return pattern(down + step)
    if 4 * square < middle * middle or (down // step) % 2 == 0:
        return pattern(down)
    return pattern(down + step)


def key(n):
    """What a pattern that is no NaN's is ordered by: both zeros are 0."""
    size = 1 << 400 if n & 0x7FFFFFFF == INF else units(n)
    return -size if n & SIGN else size


def larger(a, b):
    if is_nan(a):
        return NAN if is_nan(b) else b
    if is_nan(b):
        return a
    return b if key(a) < key(b) else a


def smaller(a, b):
    if is_nan(a):
        return NAN if is_nan(b) else b
    if is_nan(b):
        return a
    return b if key(b) < key(a) else a


class Random:
    def __init__(self, seed):
        self.state = seed

    def next(self):
        self.state = (self.state * 6364136223846793005 + 1442695040888963407) % 2**64
        return self.state >> 32


NANS = [0x7F800001, 0x7F80FFFF, 0x7FA00000, 0x7FBFFFFF, 0x7FC00000, 0x7FFFFFFF, 0xFF800001, 0xFFBFFFFF, 0xFFC00000, 0xFFFFFFFF]
PLAIN = [0, 1, 2, 3, 4, 0x1000, 0x400000, 0x7FFFFE, 0x7FFFFF, 0x800000, 0x800001, 0x1000000, 0x33800000, 0x3EAAAAAB, 0x3F000000,
         0x3F7FFFFF, 0x3F800000, 0x3F800001, 0x40000000, 0x40490FDB, 0x40800000, 0x41100000, 0x4B000000, 0x4B800000,
         0x7F000000, 0x7F7FFFFE, 0x7F7FFFFF, INF]
LIMITS = PLAIN + [n | SIGN for n in PLAIN] + NANS


def near_squares():
    """The floats next to squares of numbers of 24 digits, and squares that a float holds."""
    out = []
    for k in (0, 1, 2, 1000, 2896309, 2896310, 4194304, 8388606, 8388607):
        square = (2**23 + k) ** 2
        drop = square.bit_length() - 24
        low = pattern((square >> drop << drop) << 149)
        out += [low - 1, low, low + 1, low + 2]
    for k in (3, 5, 1000, 2047, 4093, 4095):
        low = pattern(k * k << 149)
        out += [low - 1, low, low + 1]
    return out


def near_halves():
    """Floats whose root lies as near as possible to the middle of two floats, below it and above it."""
    found = []
    for r in range(2**24 + 1, 2**25, 2):
        shift = 25 if r * r < 2**49 else 26
        rest = r * r % 2**shift
        if rest < 60 or 2**shift - rest < 60:
            found.append((r, shift))
    out = []
    for r, shift in found:
        m = r * r >> shift
        for field in (1, 2, 101, 102, 127, 128, 253, 254):
            if field % 2 == (0 if shift == 26 else 1):
                for k in (m, m + 1):
                    if 2**23 <= k < 2**24:
                        out.append((field << 23) + k - 2**23)
    return out


def sqrt_cases():
    rnd = Random(1)
    asked = list(LIMITS) + near_squares() + near_halves()
    asked += [rnd.next() & 0x7FFFFFFF for _ in range(200)]  # of all sizes, and a NaN now and then
    asked += [rnd.next() & 0x7FFFFF for _ in range(60)]  # subnormal
    asked += [rnd.next() >> k & 0x7FFFFF for k in range(10, 30)]  # small ones
    asked += [0x3F000000 + (rnd.next() & 0x1FFFFFF) for _ in range(60)]  # near 1
    asked += [rnd.next() | SIGN for _ in range(30)]
    return [(n, root(n)) for n in dict.fromkeys(asked)]


def pairs():
    rnd = Random(2)
    some = [0, SIGN, 1, SIGN | 0x7FFFFF, 0x800000, 0x3F800000, 0xBF800000, 0x7F7FFFFF, INF, INF | SIGN, 0x7FC00000, 0xFF800001]
    out = [(a, b) for a in some for b in some]
    out += [(rnd.next(), rnd.next()) for _ in range(26)]
    for _ in range(10):  # neighbours, of one sign and of two
        n = rnd.next()
        out += [(n, n ^ 1), (n, n ^ SIGN), (n, n)]
    return out


def finite_cases():
    rnd = Random(3)
    asked = LIMITS + [rnd.next() for _ in range(40)]
    return [(n, n & 0x7FFFFFFF < INF) for n in asked]


def literals():
    """Finite patterns with their values to 9 decimal digits, which name one float each."""
    rnd = Random(4)
    asked = [n for n in LIMITS if n & 0x7FFFFFFF < INF]
    while len(asked) < 90:
        n = rnd.next()
        if n & 0x7FFFFFFF < INF:
            asked.append(n)
    out = []
    for n in asked:
        size = n & 0x7FFFFFFF
        text = '0.0' if size == 0 else '{:.8e}'.format(Decimal(units(size)) / Decimal(2**149))
        twice = Fraction(text) * 2**150  # between the middles to the neighbours
        assert size == 0 or units(size) + units(size - 1) < twice < units(size) + units(size + 1)
        out.append((n, ('-' if n & SIGN else '') + text.replace('e+', 'e')))
    return out


def write_array(f, text, name, kind, items):
    f.write('\n// %s\npub const %s: [%s; %d] = [\n' % (text, name, kind, len(items)))
    f.write(made.rows(items) + '];\n')


def write_cases(f, text, name, cases):
    write_array(f, text, name, '(u32, u32)', ['(0x%08x, 0x%08x)' % case for case in cases])


def files():
    sqrt, finite, both, exact = sqrt_cases(), finite_cases(), pairs(), literals()
    special = [(n, n) for n in (INF, INF | SIGN)] + [(n, NAN) for n in NANS + [INF + 1 + k * 0x12345 % 0x7FFFFF for k in range(10)]]
    with io.StringIO() as f:
        f.write('// Made by tools/float_answers.py, which works each answer out by whole numbers.\n')
        f.write('// A case begins with a pattern, or with two, and ends with what is answered. 7fc00000 stands for every NaN.\n')
        write_cases(f, 'Square roots.', 'SQRT', sqrt)
        write_array(f, 'Whether the pattern is finite.', 'IS_FINITE', '(u32, bool)', ['(0x%08x, %s)' % (n, 'true' if is_finite else 'false') for n, is_finite in finite])
        write_cases(f, 'The patterns of the infinities, and some of NaNs.', 'SPECIAL', special)
        pair = ['(0x%08x, 0x%08x, 0x%08x, 0x%08x)' % (a, b, smaller(a, b), larger(a, b)) for a, b in both]
        write_array(f, 'Two operands, the smaller and the larger of the two.', 'PAIRS', '(u32, u32, u32, u32)', pair)
        values = ['(0x%08x, %s)' % case for case in exact]
        write_array(f, 'Finite patterns, and their values to 9 digits, which name one float each.', 'VALUES', '(u32, f32)', values)
        cases_text = f.getvalue()
    runs = (('sqrt', sqrt), ('sqrt_each', sqrt), ('min', both), ('max', both), ('is_finite', finite), ('from_bits special', special), ('from_bits', exact))
    stdout = ''.join('%s %d ok\n' % (name, len(cases)) for name, cases in runs)
    return {'crates/float_check/src/cases.rt': cases_text.encode(), 'crates/float_check/stdout': stdout.encode()}


if __name__ == '__main__':
    sys.exit(made.main(__doc__, files))
