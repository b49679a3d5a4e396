#!/usr/bin/env python3
"""demo_recording.py FILE: a recording of a room, 16 frames a second for 100 seconds, the same bytes on every run.

 0 to 20 s  the room is empty
20 to 40 s  somebody walks about
40 to 55 s  the room is empty again
55 to 70 s  the link gets bad
70 to 80 s  the link is good again
80 to 81 s  a metal door swings past the receiver
85 s on     the furniture has been moved
"""
import math
import random
import sys

from records import record

RATE = 16
TONES = 16


def quality_at(t, noise):
    return (0.25 if 55 <= t < 70 else 0.9) + noise.uniform(-0.02, 0.02)


def amplitudes_at(t, noise, empty, moved):
    room = moved if t >= 85 else empty
    if 80 <= t < 81:
        return [2.2 * a for a in room]
    stir = 0.25 if 20 <= t < 40 else 0.002
    return [a * (1 + noise.uniform(-stir, stir)) for a in room]


def main(path):
    noise = random.Random(7)
    empty = [8 + 3 * math.sin(0.5 * k) for k in range(TONES)]
    moved = [8 + 3 * math.sin(0.5 * k + 1.2) for k in range(TONES)]
    with open(path, 'wb') as f:
        for j in range(100 * RATE):
            t = j / RATE
            amplitudes = amplitudes_at(t, noise, empty, moved)
            phases = [noise.uniform(-0.05, 0.05) for _ in range(TONES)]
            f.write(record(j * 10 ** 9 // RATE, quality_at(t, noise), amplitudes, phases))


if __name__ == '__main__':
    if len(sys.argv) != 2:
        sys.exit('usage: demo_recording.py FILE')
    main(sys.argv[1])
