#!/usr/bin/env python3
"""Vectors for the logistic score, made with no part of the crate: fractions, and the decimal module for e^x.

  logistic_vectors.py             write its files of crates/vectors/data/
  logistic_vectors.py --check     say whether those files are what this program would write
  logistic_vectors.py --distance  the largest distance of document 01's rule from the true logistic, over 200,000 inputs and more

A row is 16 bytes, little-endian. For a score: the bits of z, then the reply number times 2^32 plus the score's bits (reply 0)
or the place (reply 6). For a window's presence score: the bits of motion plus 2^32 times those of presence_threshold, then the score's.
"""
import os
import random
import struct
import sys
from decimal import Decimal, getcontext
from fractions import Fraction

getcontext().prec = 60
SEED = 20261115
ROOT = os.path.join(os.path.dirname(os.path.abspath(__file__)), "..", "crates", "vectors", "data")
NAN, INF, SIGN = 0x7FC00000, 0x7F800000, 0x80000000


def true_logistic(z):
    """1/(1 + e^-z) of a fraction, to 60 digits."""
    x = Decimal(z.numerator) / Decimal(z.denominator)
    return 1 / (1 + (-x).exp())


def table_entry(k):
    """2^24/(1 + e^-(k/64 - 16)) to nearest; the value must stand clear of a tie."""
    v = true_logistic(Fraction(k, 64) - 16) * (1 << 24)
    n = int((v + Decimal("0.5")).to_integral_value(rounding="ROUND_FLOOR"))
    if abs(abs(v - n) - Decimal("0.5")) < Decimal("1e-6"):
        sys.exit(f"logistic_vectors: entry {k} is too near a tie")
    return n


TABLE = [table_entry(k) for k in range(2049)]


# ---- f32, by its bits
def is_nan(bits):
    return bits % SIGN > INF


def value(bits):
    """The fraction that finite bits stand for."""
    e, t = bits % SIGN >> 23, bits % (1 << 23)
    size = Fraction(t, 1 << 149) if e == 0 else Fraction((1 << 23) + t) * Fraction(2) ** (e - 150)
    return -size if bits >= SIGN else size


def rounded(v, negative):
    """The bits of the f32 nearest to the fraction v, a tie to the even one; `negative` is the sign of a zero."""
    sign = SIGN if v < 0 or (v == 0 and negative) else 0
    v = abs(v)
    if v == 0:
        return sign
    # v is q * 2^e and a rest, where q has 24 digits, or e is -149
    e = max(v.numerator.bit_length() - v.denominator.bit_length() - 24, -149)
    if v >= Fraction(1 << 24) * Fraction(2) ** e:
        e += 1
    units = v / Fraction(2) ** e
    q = units.numerator // units.denominator
    rest = units - q
    if rest > Fraction(1, 2) or (rest == Fraction(1, 2) and q % 2):
        q += 1
    # a carry out of the digits, or into the first normal value, raises the exponent's field by itself
    return sign + min((e + 149 << 23) + q, INF)


def next_up(bits):
    if bits == SIGN:
        return 1
    return bits - 1 if bits >= SIGN else bits + 1


def next_down(bits):
    if bits == 0:
        return SIGN + 1
    return bits + 1 if bits >= SIGN else bits - 1


# ---- document 01's rule
def units(z):
    q = (z * 65536).numerator // (z * 65536).denominator
    u = q + 1048576
    k, r = divmod(u, 1024)
    return TABLE[k] + ((TABLE[k + 1] - TABLE[k]) * r // 1024 if r > 0 else 0)


def score(bits):
    """The score of z as a fraction, or None for a NaN."""
    if is_nan(bits):
        return None
    if bits == INF or (bits < SIGN and value(bits) > 16):
        return Fraction(1)
    if bits == SIGN + INF or value(bits) < -16:
        return Fraction(0)
    return Fraction(units(value(bits)), 1 << 24)


def exact_bits(s):
    bits = rounded(s, False)
    assert value(bits) == s
    return bits


def vector(bits):
    s = score(bits)
    return (bits, 6 << 32) if s is None else (bits, exact_bits(s))


def presence(motion, threshold):
    """(motion - presence_threshold) * 20 in f32, then the rule; motion and threshold finite."""
    difference = rounded(value(motion) - value(threshold), motion == SIGN and threshold == 0)
    if difference % SIGN == INF:
        return (motion + (threshold << 32), exact_bits(score(difference)))
    return (motion + (threshold << 32), exact_bits(score(rounded(value(difference) * 20, difference >= SIGN))))


# ---- the groups
def of(x):
    return rounded(Fraction(x), False)


def beside(bits):
    return [next_down(bits), bits, next_up(bits)]


def groups():
    pick = random.Random(SEED)
    out = {"table": [vector(of(Fraction(k, 64) - 16)) for k in range(2049)]}
    qs = sorted(set(range(-1048576, 1048577, 397)) | {k * 1024 for k in range(-1024, 1025, 16)} | set(range(-40, 41)) | {pick.randrange(-1048576, 1048577) for _ in range(2500)})
    out["multiples"] = [vector(b) for q in qs for b in beside(of(Fraction(q, 65536)))]
    edge = [0, SIGN, 1, SIGN + 1, 2, SIGN + 2, 0x7FFFFF, SIGN + 0x7FFFFF, 0x800000, SIGN + 0x800000, INF - 1, SIGN + INF - 1, INF, SIGN + INF,
            NAN, SIGN + NAN, INF + 1, SIGN + INF + 1, 0x7FFFFFFF, 0xFFFFFFFF]
    for x in [16, 17, 15, 1, Fraction(1, 2), Fraction(1, 64), Fraction(1, 65536), Fraction(1, 1 << 20), Fraction(1, 1 << 24), 1 << 20, 1 << 64, Fraction(20), Fraction(2, 5)]:
        edge += beside(of(x)) + beside(of(-x))
    for far in range(1, 200):
        edge += [of(16) - far, of(16) + far, of(-16) - far, of(-16) + far]
    out["edges"] = [vector(b) for b in edge]
    spread = [pick.randrange(0, 1 << 32) for _ in range(1500)]
    spread += [pick.randrange(0x30000000, 0x41900000) + SIGN * pick.randrange(2) for _ in range(5000)]
    spread += [of(Fraction(pick.randrange(-17 << 40, 17 << 40), 1 << 40)) for _ in range(5000)]
    out["spread"] = [vector(b) for b in spread]
    thresholds = [of(Fraction(1, 50)), 0, of(1000000), of(Fraction(1, 2)), 1, of(3)]
    motions = [0, 1, 0x7FFFFF, 0x800000, INF - 1, of(1000000), of(Fraction(1, 50)), of(Fraction(41, 50)), of(Fraction(3, 4))]
    pairs = [(m, t) for m in motions for t in thresholds]
    for _ in range(2500):
        t = pick.choice([of(Fraction(1, 50)), of(Fraction(pick.randrange(0, 1 << 30), 1 << 28))])
        pairs.append((of(Fraction(pick.randrange(0, 1 << 30), 1 << 30)), t))
        pairs.append((next_up(t) + pick.randrange(0, 1000), t))
    out["presence"] = [presence(m, t) for m, t in pairs]
    return out


def files():
    return {os.path.join(ROOT, "logistic_" + name): b"".join(struct.pack("<QQ", *v) for v in vectors) for name, vectors in groups().items()}


def distance():
    """The largest distance from the true logistic: over an even spread from -17 to 17, and at f32 values just below multiples of 2^-16, where the floor costs most."""
    pick = random.Random(SEED)
    zs = {of(Fraction(n, 1 << 20)) for n in range(-17 << 20, (17 << 20) + 1, 320)}
    zs |= {next_down(of(Fraction(pick.randrange(-1048575, 1048577), 65536))) for _ in range(100000)}
    zs |= {next_down(of(Fraction(q, 65536))) for q in range(-131072, 131073, 7)}
    worst, at = Decimal(0), None
    for b in sorted(zs):
        s = score(b)
        d = abs(Decimal(s.numerator) / Decimal(s.denominator) - true_logistic(value(b)))
        if d > worst:
            worst, at = d, b
    limit = Decimal(1) / Decimal(65536)
    print(f"logistic_vectors: {len(zs)} inputs, largest distance {worst:.10f} (2^-16 is {limit:.10f}) at z = {float(value(at))} ({at:08x})")
    if worst >= limit:
        sys.exit("logistic_vectors: not within 2^-16")


def main():
    args = sys.argv[1:]
    if args == ["--distance"]:
        return distance()
    made = files()
    if args == ["--check"]:
        wrong = [os.path.relpath(p, ROOT) for p, b in made.items() if not os.path.exists(p) or open(p, "rb").read() != b]
        if wrong:
            sys.exit("logistic_vectors: not what this program writes: " + ", ".join(wrong))
        print("logistic_vectors: the stored vectors are as written here")
    elif args:
        sys.exit(__doc__)
    else:
        os.makedirs(ROOT, exist_ok=True)
        for p, b in made.items():
            with open(p, "wb") as out:
                out.write(b)
            print(os.path.basename(p), len(b) // 16)


main()
