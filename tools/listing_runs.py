#!/usr/bin/env python3
"""listing_runs.py PROGRAM.. [--runs N] [--seed S]: runs the program on recordings made from a seed, most of them damaged, and compares
each listing with model.py's. PROGRAM.. is the command to which a recording's name is added. The last line is 'N passed, M failed'.

A recording has frames that are taken and frames that replies 2, 3, 4, 6 and 7 skip, in records of 10 to 4,135 bytes; every third is
several times as long as the program's buffer. A few have the longest records, laid so that the bytes held end just before one does.
Damage: bits turned, bytes put in, left out or doubled, cuts anywhere and at the ends of the buffer, counts and flags too large, numbers
not in their shortest form, and bytes from nowhere.
"""
import argparse
import io
import os
import random
import subprocess
import sys
import tempfile

sys.dont_write_bytecode = True
from model import listing
from records import number, record

LAST = 2 ** 64 - 1
HELD = 16384
ODD = [0x7fc00000, 0xffc00001, 0x7f800000, 0xff800000, 0x00000001, 0x80000000, 0x7f7fffff, 0xff7fffff]


def frames(r, most):
    """The records of a recording of about `most` bytes."""
    session, source = r.choice([0, 1, 300, LAST]), r.choice([1, 2 ** 35])
    time, out, size = r.choice([0, 10 ** 9, LAST - 5 * 10 ** 9]), [], 0
    n, m, level, stir, quality = 1, 0, 4.0, 0.001, 0.9
    while size < most:
        if r.random() < 0.06:
            n, m = r.choice([0, 1, 2, 5, 16, 64, 255, 256]), r.choice([0, 0, 1, 3, 256])
            level, stir, quality = 4 * 1.7 ** r.randrange(4), r.choice([0.001, 0.3]), r.choice([0.1, 0.9])
        f = dict(session=session, source=source, time=time, quality=quality * r.uniform(0.9, 1.1), flag=1,
                 amplitudes=[level * (1 + r.uniform(-stir, stir)) for _ in range(n)], phases=[r.uniform(-3, 3) for _ in range(n)],
                 pairs=[(level * r.uniform(0.9, 1.1), r.uniform(-0.1, 0.1)) for _ in range(m)])
        odd = r.randrange(60)
        if odd == 0:
            f['flag'] = 0
        elif odd == 1:
            f['session'] ^= 1
        elif odd == 2:
            f['source'] += 1
        elif odd == 3:
            f['quality'] = r.choice(ODD)
        elif odd == 4 and n:
            f[r.choice(['amplitudes', 'phases'])][r.randrange(n)] = r.choice(ODD)
        elif odd == 5 and m:
            f['pairs'][r.randrange(m)] = (r.choice(ODD), 0.0)
        elif odd == 6:
            f['time'] = LAST
        elif odd == 7:
            f['amplitudes'], f['phases'] = f['amplitudes'][1:], f['phases'][1:]
        elif odd == 8:
            time = max(time - 3 * 10 ** 9, 0)
        out.append(record(**f))
        size += len(out[-1])
        time = min(time + r.choice([1, 10 ** 7, 10 ** 8, 6 * 10 ** 8, 10 ** 9]), LAST)
    return out


def edge(m):
    """Records of 4,135 bytes, the longest, behind one with m pairs: for m from 237 to 241 the bytes held end 4 to 36 before the third of them does."""
    def longest(time, pairs):
        return record(LAST - 10 ** 10 + time, 0.9, [4.0] * 256, [0.5] * 256, [(3.0, 4.0)] * pairs, session=LAST, source=LAST)
    return longest(0, m) + b''.join(longest(t * 10 ** 8, 256) for t in range(1, 9))


def header(fields):
    return b''.join(map(number, fields))


def damaged(r, parts, kind):
    """The recording's bytes after one kind of damage; kind 0 leaves it whole."""
    data = bytearray(b''.join(parts))
    at = r.randrange(len(data))
    starts = [0]
    for p in parts:
        starts.append(starts[-1] + len(p))
    start = r.choice(starts)
    if kind == 1:
        data[at] ^= 1 << r.randrange(8)
    elif kind == 2:
        data[at:at] = bytes(r.randrange(256) for _ in range(r.randrange(1, 9)))
    elif kind == 3:
        del data[at:at + r.randrange(1, 9)]
    elif kind == 4:
        data[at:at] = data[at:at + r.randrange(1, 500)]
    elif kind == 5:
        del data[at:]
    elif kind == 6:
        del data[min(HELD * r.randrange(1, 4) + r.randrange(-4, 5), len(data)):]
    elif kind == 7:
        data[start:start] = header([1, 1, 1]) + number(r.choice([2, 128, LAST]))
    elif kind == 8:
        data[start:start] = header([1, 1, 1, 1]) + r.choice([number(257), number(1) + number(2 ** 40)])
    elif kind == 9:
        data[start:start] = r.choice([b'\x80\x00', b'\xff' * 9 + b'\x02', b'\x80' * 9 + b'\x00', b'\x81' * 30])
    elif kind == 10:
        data[start:] = bytes(r.randrange(256) for _ in range(r.randrange(60)))
    elif kind == 11:
        for _ in range(20):
            data[r.randrange(len(data))] ^= 1 << r.randrange(8)
    return bytes(data)


def recording(seed, i):
    """The bytes of the recording of run i."""
    r = random.Random(f'{seed} {i}')
    if i == 0:
        return b''
    if i < 6:
        return edge(236 + i)
    return damaged(r, frames(r, r.choice([20, 900, 5000]) if i % 3 else 60000), i % 12)


def main():
    words = argparse.ArgumentParser()
    words.add_argument('program', nargs='+')
    words.add_argument('--runs', type=int, default=240)
    words.add_argument('--seed', type=int, default=1)
    words = words.parse_args()
    failed, stops = 0, {}
    with tempfile.TemporaryDirectory() as folder:
        path = os.path.join(folder, 'recording')
        for i in range(words.runs):
            data = recording(words.seed, i)
            with open(path, 'wb') as f:
                f.write(data)
            want = io.StringIO()
            listing(data, want.write)
            ran = subprocess.run([*words.program, path], capture_output=True)
            stop = [line.split(',')[1] for line in want.getvalue().split('\n') if line.startswith('stop,')]
            stops[''.join(stop)] = stops.get(''.join(stop), 0) + 1
            if ran.returncode or ran.stderr or ran.stdout != want.getvalue().encode():
                failed += 1
                kept = f'listing-{words.seed}-{i}.rec'
                with open(kept, 'wb') as f:
                    f.write(data)
                print(f'run {i} differs; its recording is {kept}')
    print('whole: %d; stopped by: %s' % (stops.pop('', 0), ', '.join(f'{k} {v}' for k, v in sorted(stops.items(), key=lambda x: int(x[0])))))
    print(f'{words.runs - failed} passed, {failed} failed')
    return 1 if failed else 0


if __name__ == '__main__':
    sys.exit(main())
