#!/usr/bin/env python3
"""long_recording.py FILE: the recording of the program's stored run, the same bytes on every run.

It is many times longer than the program's buffer, with records of 10 bytes to the longest that occur, so that records lie across the
buffer's ends. Among them are frames that replies 2, 3, 4, 6 and 7 skip, windows of one frame and of sixteen, clocks that go back, and
every kind of event. It ends with a number that is not in its shortest form, so that reading is refused far behind the buffer's first byte.
"""
import random
import sys

from records import number, record

LAST = 2 ** 64 - 1
NAN, INF = 0x7fc00001, 0xff800000


def frame(r, time, n, m, level, stir, quality):
    amplitudes = [level * (1 + r.uniform(-stir, stir)) for _ in range(n)]
    phases = [r.uniform(-3, 3) for _ in range(n)]
    pairs = [(level * r.uniform(0.9, 1.1), r.uniform(-0.1, 0.1)) for _ in range(m)]
    return dict(time=time, quality=quality, amplitudes=amplitudes, phases=phases, pairs=pairs, session=2 ** 63 + 5, source=LAST)


def skipped(r, f):
    """A frame that is skipped, whatever is pending but for a wrong count."""
    f = dict(f)
    kind = r.randrange(5)
    if kind == 0:
        f['flag'] = 0
    elif kind == 1:
        f['session'] = 3
    elif kind == 2:
        f['source'] = 0
    elif kind == 3:
        f['quality'] = NAN
    else:
        f['phases'] = [*f['phases'][:-1], INF]
    return f


def main(path):
    r = random.Random(24)
    out, time = [], 5 * 10 ** 9
    for part in range(16):
        n = r.choice([1, 2, 16, 64, 255, 256]) if part % 6 else 256
        m = r.choice([0, 1, 64, 256])
        level = 4 * 1.6 ** r.randrange(5)
        stir, quality = r.choice([0.001, 0.3]), r.choice([0.1, 0.9, 0.9])
        windows = r.choice([2, 3, 4, 5])
        most = 3 if n + m > 200 else 16
        if part == 7:
            out.append(frame(r, LAST, n, m, level, stir, quality))
        for _ in range(windows):
            frames = r.randrange(2, most + 1)
            step = 10 ** 9 // (frames - 1) + 1 if frames < 16 else 10 ** 7
            for j in range(frames):
                f = frame(r, time, n, m, level, stir, quality + r.uniform(-0.05, 0.05))
                out.append(f)
                time += step
                if r.random() < 0.06:
                    out.append(skipped(r, f))
                if 0 < j < frames - 1 and r.random() < 0.03:
                    out.append(frame(r, time, n - 1, 0, level, stir, quality))
            if r.random() < 0.1:
                time -= 3 * 10 ** 9
    with open(path, 'wb') as f:
        for x in out:
            f.write(record(**x))
        # a frame that is left for the flush, and then 129 in the long form
        f.write(record(**frame(r, time, 256, 256, 4.0, 0.001, 0.5)))
        f.write(number(1) + number(1) + bytes([129, 129, 0]))


if __name__ == '__main__':
    if len(sys.argv) != 2:
        sys.exit('usage: long_recording.py FILE')
    main(sys.argv[1])
