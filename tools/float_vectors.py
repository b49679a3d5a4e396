#!/usr/bin/env python3
"""Test vectors for the crate `floats`, by whole-number arithmetic alone: no float of Python's, no libm.

    float_vectors.py           writes crates/vectors/data/
    float_vectors.py --check   says whether the stored files are what it would write

A file is a row of 16 bytes a case, little-endian: the input's bits, then those of the right answer (a test's answer is 0 or 1).
Every NaN that is an answer is written as the format's quiet NaN. The seed is fixed, so a run can be repeated.
"""
import os
import random
import struct
import sys
from math import isqrt

DATA = os.path.join(os.path.dirname(os.path.abspath(__file__)), '..', 'crates', 'vectors', 'data')
SEED = 20261115


class Format:
    """A binary format of IEEE 754: p digits, exponents down to emin, `width` bits."""

    def __init__(self, p, emin, emax, width):
        self.p, self.emin, self.emax, self.width = p, emin, emax, width
        self.sign = 1 << (width - 1)
        self.one = 1 << (p - 1)
        self.inf = (2 * emax + 1) << (p - 1)
        self.nan = self.inf + self.one // 2


F32 = Format(24, -126, 127, 32)
F64 = Format(53, -1022, 1023, 64)


def kind(f, bits):
    m = bits % f.sign
    return 'nan' if m > f.inf else 'inf' if m == f.inf else 'number'


def value(f, bits):
    """(sign, m, e) of a finite pattern: the number m * 2**e."""
    m = bits % f.sign
    field, digits = divmod(m, f.one)
    if field == 0:
        return bits // f.sign, digits, f.emin - f.p + 1
    return bits // f.sign, digits + f.one, field + f.emin - f.p


def nearest_even(n, d):
    q, r = divmod(n, d)
    if 2 * r > d or (2 * r == d and q % 2):
        q += 1
    return q


def round_to(f, n, d):
    """The pattern, without a sign, of the value of f nearest to n / d, a tie to the even one."""
    if n == 0:
        return 0
    e = n.bit_length() - d.bit_length()
    if (n << max(-e, 0)) < (d << max(e, 0)):
        e -= 1
    quantum = max(e, f.emin) - f.p + 1
    q = nearest_even(n << max(-quantum, 0), d << max(quantum, 0))
    if q >= 2 * f.one:
        q //= 2
        quantum += 1
    if quantum + f.p - 1 > f.emax:
        return f.inf
    if q < f.one:
        return q
    return q - f.one + ((quantum + f.p - f.emin) << (f.p - 1))


def narrow(b):
    s = (b // F64.sign) * F32.sign
    k = kind(F64, b)
    if k == 'nan':
        return F32.nan
    if k == 'inf':
        return s + F32.inf
    _, m, e = value(F64, b)
    return s + round_to(F32, m << max(e, 0), 1 << max(-e, 0))


def widen(b):
    s = (b // F32.sign) * F64.sign
    k = kind(F32, b)
    if k == 'nan':
        return F64.nan
    if k == 'inf':
        return s + F64.inf
    _, m, e = value(F32, b)
    return s + round_to(F64, m << max(e, 0), 1 << max(-e, 0))


def root(b):
    k = kind(F64, b)
    if k == 'nan':
        return F64.nan
    if b % F64.sign == 0:
        return b
    if b >= F64.sign:
        return F64.nan
    if k == 'inf':
        return b
    _, m, e = value(F64, b)
    # 160 more binary digits than the format keeps, and a last one that says whether anything is left
    shift = 320 + (e % 2)
    n = m << shift
    r = isqrt(n)
    odd = 0 if r * r == n else 1
    half = (e - shift) // 2
    return round_to(F64, (2 * r + odd) << max(half - 1, 0), 1 << max(1 - half, 0))


def clamp(b):
    if kind(F32, b) == 'nan':
        return F32.nan
    if b >= F32.sign:
        return b if b == F32.sign else 0
    one = 127 << 23
    return one if b > one else b


def finite(f):
    return lambda b: 1 if kind(f, b) == 'number' else 0


def same(b):
    return F32.nan if kind(F32, b) == 'nan' else b


def hard_roots():
    """Numbers whose roots lie nearest to the middle between two doubles: s odd of 54 digits with s * s = d mod 2**54, d small."""
    out = []
    for d in range(-8007, 8010, 8):
        if d % 8 != 1:
            continue
        s = 1
        for k in range(3, 58):
            if (s * s - d) % (1 << (k + 1)):
                s += 1 << (k - 1)
        for t in {s % (1 << 54), -s % (1 << 54), (s + (1 << 53)) % (1 << 54), ((1 << 53) - s) % (1 << 54)}:
            if t < 1 << 53:
                continue
            for k in (54, 55):
                x, left = divmod(t * t - d, 1 << k)
                if left == 0 and 1 << 52 <= x < 1 << 53:
                    out.append((x, k % 2))
    return out


def root_inputs(rng):
    specials = [0, 1, 2, 3, F64.one - 1, F64.one, F64.one + 1, F64.inf - 1, F64.inf, F64.inf + 1, F64.nan, F64.sign - 1]
    xs = specials + [x + F64.sign for x in specials]
    for x, odd in hard_roots():
        for e in (0, 2, 400, -400):
            xs.append(x - F64.one + ((1023 + 52 + odd + e) << 52))
    for k in list(range(0, 1200)) + [rng.randrange(1 << 26) for _ in range(600)]:
        b = round_to(F64, k * k, 1)
        xs += [b, max(b - 1, 0), b + 1]
    xs += list(range(0, 400)) + [rng.randrange(F64.one) for _ in range(600)]
    xs += [(e << 52) + m for e in range(0, 2047) for m in (0, 1, F64.one - 1)]
    xs += [rng.randrange(F64.inf) for _ in range(4000)]
    xs += [F64.sign + rng.randrange(F64.inf) for _ in range(200)]
    xs += [F64.inf + 1 + rng.randrange(F64.one - 1) for _ in range(50)]
    return xs


def narrow_inputs(rng):
    xs = []
    specials = [0, 1, F64.one - 1, F64.one, F64.inf - 1, F64.inf, F64.inf + 1, F64.nan, F64.sign - 1]
    # the ends: the least and largest normal and subnormal values of f32, half the least, and the edge of overflow
    edges = [widen(b) for b in (1, 2, 3, F32.one - 1, F32.one, F32.one + 1, F32.inf - 2, F32.inf - 1)]
    edges += [(1023 - 150) << 52, (1023 - 151) << 52, (1023 + 128) << 52, ((1023 + 128) << 52) - (1 << 28)]
    for b in specials + [e + k for e in edges for k in range(-40, 41)]:
        xs += [b, b + F64.sign]
    # ties: 24 digits and a half, in both directions, and their neighbours; at every exponent of f32
    for e in range(1023 - 152, 1023 + 130):
        for _ in range(6):
            dropped = 29 if e >= 897 else min(29 + 897 - e, 52)
            m = (rng.randrange(1 << 52) >> dropped << dropped) + (1 << (dropped - 1))
            s = rng.randrange(2) * F64.sign
            b = s + (e << 52) + m % F64.one
            xs += [b, b - 1, b + 1]
    # carries at a binade's end
    for e in range(1023 - 151, 1023 + 129):
        b = (e << 52) + F64.one - 1
        xs += [b, b - (1 << 27), b - (1 << 28), b - (1 << 29), b + F64.sign]
    for _ in range(13000):
        e = rng.randrange(1023 - 155, 1023 + 131)
        xs.append(rng.randrange(2) * F64.sign + (e << 52) + rng.randrange(F64.one))
    xs += [rng.randrange(1 << 64) for _ in range(1000)]
    return [b % (1 << 64) for b in xs]


def f32_inputs(rng):
    one = 127 << 23
    xs = []
    for b in (0, 1, 2, F32.one - 1, F32.one, F32.inf - 1, F32.inf, F32.inf + 1, F32.nan, F32.sign - 1, one - 1, one, one + 1):
        xs += [b, b + F32.sign]
    xs += [(e << 23) + m for e in range(256) for m in (0, 1, F32.one - 1)]
    return xs + [rng.randrange(1 << 32) for _ in range(1200)]


def f64_inputs(rng):
    xs = []
    for b in (0, 1, F64.one - 1, F64.one, F64.inf - 1, F64.inf, F64.inf + 1, F64.nan, F64.sign - 1):
        xs += [b, b + F64.sign]
    return xs + [rng.randrange(1 << 64) for _ in range(1000)] + [F64.inf - 500 + k for k in range(1000)]


def files():
    rng = random.Random(SEED)
    wide, roots, narrowings, single = f64_inputs(rng), root_inputs(rng), narrow_inputs(rng), f32_inputs(rng)
    groups = {
        'roots': (roots, root),
        'narrowings': (narrowings, narrow),
        'widenings': (single, widen),
        'clamps': (single, clamp),
        'finite': (single, finite(F32)),
        'finite_wide': (wide, finite(F64)),
        'patterns': (single, same),
        'finite_patterns': (single, finite(F32)),
    }
    return {name: b''.join(struct.pack('<QQ', x, answer(x)) for x in xs) for name, (xs, answer) in groups.items()}


def main():
    wrong = 0
    os.makedirs(DATA, exist_ok=True)
    for name, data in files().items():
        path = os.path.join(DATA, name)
        if '--check' in sys.argv:
            same_bytes = os.path.exists(path) and open(path, 'rb').read() == data
            wrong += not same_bytes
            print(name, len(data) // 16, 'as stored' if same_bytes else 'DIFFERS')
        else:
            open(path, 'wb').write(data)
            print(name, len(data) // 16)
    sys.exit(1 if wrong else 0)


main()
