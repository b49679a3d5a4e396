"""The recording format of document 01, for the programs in this folder: a record's bytes."""
import struct


def number(v):
    """Groups of seven bits, low group first, top bit set while more follow."""
    out = bytearray()
    while v > 127:
        out.append(128 + v % 128)
        v //= 128
    out.append(v)
    return bytes(out)


def word(x):
    """The four bytes of a float; a whole number is taken for its bits."""
    return struct.pack('<I', x) if isinstance(x, int) else struct.pack('<f', x)


def record(time, quality, amplitudes, phases, pairs=(), session=1, source=1, flag=1):
    """Session, source, time, flag, subcarriers, pairs; then quality, amplitudes, phases, pairs (i, q)."""
    assert len(amplitudes) == len(phases)
    head = (session, source, time, flag, len(amplitudes), len(pairs))
    floats = [quality, *amplitudes, *phases, *(x for pair in pairs for x in pair)]
    return b''.join(map(number, head)) + b''.join(map(word, floats))
