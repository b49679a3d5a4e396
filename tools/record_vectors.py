#!/usr/bin/env python3
"""Makes crates/record_vectors/data/vectors: records, damaged records and refused writes, with the answers that document 01 asks for.

The reader and the writer here follow document 01 by themselves; nothing is shared with the crates. Seeded: the same file each time.
Run it in the repository's top folder.

The file is made of blocks of 65,536 bytes; a case never crosses a block's end, and a group byte of 255 ends a block. A case (numbers are
little-endian): group, kind (0 read, 1 write), place, then three list lengths and the number of bytes (two bytes each), the reply's number
and what it returns (0 nothing, 1 a place, 2 a header), the place (two bytes); for a write, or where a header is returned: the header
(session, source, time: 8 bytes each, flag, subcarriers and pairs: 8 each, quality: 4) and the three lists; for a read the input; for a write
that is taken the bytes it owes.
"""
import random, struct

BLOCK = 65536
GOOD, DAMAGED, CUT, COUNTS, STORES, PLACES, OUTPUT, WRONG = range(8)


def number(v):
    out = []
    while v > 127:
        out.append(128 | v & 127)
        v >>= 7
    return bytes(out + [v])


def words(ws):
    return b''.join(struct.pack('<I', w) for w in ws)


def record(r):
    session, source, time, flag, n, m, quality, xs, ps, qs = r
    return b''.join(number(v) for v in (session, source, time, flag, n, m)) + words([quality] + xs + ps + qs)


def read_number(data, at):
    """A value and the place after it, or 9 or 10."""
    value, taken = 0, 0
    while True:
        if at + taken >= len(data):
            return 9
        b = data[at + taken]
        taken += 1
        if taken == 10:
            return (value + (b << 63), at + taken) if b == 1 else 10
        value += (b & 127) << 7 * (taken - 1)
        if b < 128:
            return 10 if b == 0 and taken > 1 else (value, at + taken)


def read(data, at, stores):
    """The number, what is returned, the place, the record."""
    if stores[0] < 256 or stores[1] < 256 or stores[2] < 512:
        return 13, 0, 0, None
    if at >= len(data):
        return 0, 0, 0, None
    p, got = at, []
    for most, reply in ((None, 0), (None, 0), (None, 0), (1, 11), (256, 5), (256, 5)):
        x = read_number(data, p)
        if isinstance(x, int):
            return x, 1, p, None
        if most is not None and x[0] > most:
            return reply, 1, p, None
        got.append(x[0])
        p = x[1]
    n, m = got[4], got[5]
    floats = []
    for _ in range(1 + 2 * n + 2 * m):
        if p + 4 > len(data):
            return 9, 1, p, None
        floats.append(struct.unpack_from('<I', data, p)[0])
        p += 4
    return 0, 2, p, (*got, floats[0], floats[1:1 + n], floats[1 + n:1 + 2 * n], floats[1 + 2 * n:])


def header(r):
    return struct.pack('<QQQBQQI', *r[:7])


cases = []


def reading(group, data, at, stores=(256, 256, 512)):
    no, kind, place, r = read(data, at, stores)
    body = header(r) + words(r[7] + r[8] + r[9]) if r else b''
    cases.append(struct.pack('<BBHHHHHBBH', group, 0, at, *stores, len(data), no, kind, place) + body + data)


def writing(group, r, at, room):
    n, m, xs, ps, qs = r[4], r[5], r[7], r[8], r[9]
    owed, no, kind, place = b'', 0, 1, 0
    if n > 256 or m > 256 or len(xs) != n or len(ps) != n or len(qs) != 2 * m:
        no, kind = 5, 0
    elif at + len(record(r)) > room:
        no, kind = 12, 0
    else:
        owed, place = record(r), at + len(record(r))
    cases.append(struct.pack('<BBHHHHHBBH', group, 1, at, len(xs), len(ps), len(qs), room, no, kind, place) + header(r) + words(xs + ps + qs) + owed)


def main():
    rnd = random.Random(20010)
    floats = [0, 0x80000000, 0x3F800000, 0x7F800000, 0xFF800000, 0x7FC00000, 0x7F800001, 0xFFFFFFFF, 0x7FBFFFFF, 0xFFC12345, 1, 0x00800000, 0x7F7FFFFF]
    edges = [0, 1, 127, 128, 16383, 16384, 2**32 - 1, 2**32, 2**56 - 1, 2**56, 2**63 - 1, 2**63, 2**64 - 1]

    def some_float():
        return rnd.choice(floats) if rnd.random() < 0.5 else rnd.getrandbits(32)

    def some_number():
        return rnd.choice(edges) if rnd.random() < 0.5 else rnd.getrandbits(rnd.randint(1, 64))

    def made(n, m):
        return (some_number(), some_number(), some_number(), rnd.randint(0, 1), n, m, some_float(),
                [some_float() for _ in range(n)], [some_float() for _ in range(n)], [some_float() for _ in range(2 * m)])

    def junk(k):
        return bytes(rnd.randrange(256) for _ in range(k))

    # document 01's own record
    first = (1, 1, 300, 1, 1, 0, 0x3E800000, [0x40800000], [0], [])
    assert record(first) == bytes.fromhex('0101AC0201010000 00803E 00008040 00000000'.replace(' ', ''))
    reading(GOOD, record(first), 0)
    # good records: each is read, and written back
    for v in edges:
        reading(GOOD, record((v, v, v, 1, 0, 0, 0x7FC00001, [], [], [])), 0)
    for _ in range(2000):
        before, after = junk(rnd.choice([0, 0, 1, 5])), junk(rnd.choice([0, 0, 3, 9]))
        reading(GOOD, before + record(made(rnd.randint(0, 4), rnd.randint(0, 3))) + after, len(before))
    for n, m in [(0, 255), (0, 256), (1, 256), (255, 0), (255, 255), (255, 256), (256, 0), (256, 1), (256, 255), (256, 256), (256, 256)]:
        reading(GOOD, record(made(n, m)) + junk(3), 0)
    # cut at every offset
    for _ in range(28):
        r = record(made(rnd.randint(0, 3), rnd.randint(0, 2)))
        before = junk(rnd.choice([0, 2]))
        for k in range(len(r)):
            reading(CUT, before + r[:k], len(before))
    full = record(made(256, 256))
    for k in range(len(full) - 9, len(full)):
        reading(CUT, full[:k], 0)
    # counts round 0, 1, 255, 256, 257, and far off, in each order
    for n in (0, 1, 2, 127, 128, 255, 256, 257, 258, 16383, 16384, 2**32, 2**64 - 1):
        for m in (0, 1, 255, 256, 257, 2**64 - 1):
            reading(COUNTS, b''.join(map(number, (1, 2, 3, 1, n, m))) + junk(6), 0)
            reading(COUNTS, junk(3) + b''.join(map(number, (1, 2, 3, 0, n, m))), 3)
    # each number damaged: long forms, a ten-byte number at its end, a flag above 1
    tens = [b'\xff' * 9 + bytes([b]) for b in (0, 1, 2, 3, 127, 128, 129, 255)] + [b'\x80' * 9 + bytes([b]) for b in (0, 1, 2, 128)] + [b'\x80' * k for k in range(1, 12)]
    tens += [b'\x80\x00', b'\x81\x00', b'\xff\x80\x00', b'\xac\x82\x00', b'\x80' * 8 + b'\x00', b'\xff' * 8 + b'\x00', b'\xff' * 8 + b'\x7f', b'\x80' * 8 + b'\x01']
    for field in range(6):
        for t in tens:
            for at in (0, 4):
                parts = [number(v) for v in (rnd.getrandbits(20), some_number(), 7, 1, 2, 1)]
                parts[field] = t
                reading(DAMAGED, junk(at) + b''.join(parts) + words([some_float() for _ in range(7)]), at)
                reading(DAMAGED, junk(at) + b''.join(parts[:field + 1]), at)
    for flag in (2, 3, 127, 128, 255, 2**64 - 1):
        reading(DAMAGED, b''.join(map(number, (1, 2, 3, flag, 1, 0))) + words([1, 2, 3]), 0)
    # one byte of a good record changed, or a bit
    for _ in range(1500):
        r = bytearray(record(made(rnd.randint(0, 2), rnd.randint(0, 1))))
        k = rnd.randrange(min(len(r), 40))
        r[k] = rnd.choice([rnd.randrange(256), r[k] ^ 128, r[k] ^ 1, 128, 255])
        reading(DAMAGED, bytes(r), 0)
    # short lists, also before a fault
    for stores in [(255, 256, 512), (256, 255, 512), (256, 256, 511), (0, 0, 0), (256, 0, 512), (255, 255, 511), (1, 256, 512)]:
        for data in (record(first), record(made(2, 1)), record(first)[:9], b'\x80\x00', b''):
            reading(STORES, data, 0, stores)
    # a place at or past the end
    for data in (b'', record(first), record(made(1, 1))):
        for more in (0, 1, 7, 60000):
            reading(PLACES, data, len(data) + more)
    # outputs: just long enough, and short
    for _ in range(150):
        r = made(rnd.randint(0, 3), rnd.randint(0, 2))
        for at in (0, 5):
            size = at + len(record(r))
            for room in (size, size + 3, size - 1, size - 4, at, at - 1 if at else 0, 0):
                writing(OUTPUT, r, at, room)
    for n, m in ((256, 256), (255, 256)):
        r = made(n, m)
        for room in (len(record(r)), len(record(r)) - 1):
            writing(OUTPUT, r, 0, room)
    # wrong counts and lists, also with an output that is short, or that ends before the place
    for _ in range(60):
        r = list(made(rnd.randint(0, 3), rnd.randint(0, 2)))
        for place, value in ((4, r[4] + 1), (5, r[5] + 1), (4, 257), (5, 257), (4, 2**64 - 1), (5, 2**63), (7, r[7] + [1]), (8, r[8] + [1]), (9, r[9] + [1])):
            w = list(r)
            w[place] = value
            for at, room in ((0, 400), (0, 3), (5, 3)):
                writing(WRONG, tuple(w), at, room)
    for n in (256, 257):
        r = list(made(256, 1))
        r[4], r[7], r[8] = n, r[7] + [5] * (n - 256), r[8] + [6] * (n - 256)
        writing(WRONG, tuple(r), 0, 5000)

    blocks, block = [], b''
    for c in cases:
        if len(block) + len(c) + 1 > BLOCK:
            blocks.append(block)
            block = b''
        block += c
    blocks.append(block)
    data = b''.join(b + b'\xff' * (BLOCK - len(b)) for b in blocks)
    open('crates/record_vectors/data/vectors', 'wb').write(data)
    count = [sum(1 for c in cases if c[0] == g) for g in range(8)]
    print(len(cases), 'cases', count, len(data), 'bytes')


main()
