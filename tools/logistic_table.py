#!/usr/bin/env python3
"""The logistic table of document 01: entry k is 2^24/(1 + e^-(k/64 - 16)) to nearest, for k from 0 to 2,048.

  logistic_table.py           write crates/logistic/src/table.rt and crates/logistic/specs/Table.antt
  logistic_table.py --check   say whether the two files are what this program would write

All arithmetic is on whole numbers. e^x is enclosed between two fractions with 256 binary digits after the point, each
entry is rounded at both ends of what they enclose, and the two must agree: so no entry stands or falls by an error of
the series. The smallest distance from a tie is printed.
"""
import os
import sys

ENTRIES = 2049
ONE = 1 << 256
WIDTH = 99  # of a line of code, as `rt fmt` lays it out


def exp_bounds(j):
    """Whole numbers lo <= 2^256 * e^(j/64) <= hi, for 0 <= j <= 1,024."""
    total, term, n = 0, ONE, 0
    while term:
        total += term
        n += 1
        term = term * j // (64 * n)
    # A term's error is the one before it times j/(64 n), at most 16/n, and less than 1 for the cut: never above 2^25.
    # That allowance, once for each term and more, covers the terms left out too.
    return total, total + (n + 8) * (1 << 25)


def nearest(a, b):
    return (2 * a + b) // (2 * b)


def entries():
    table, closest = [], None
    for k in range(ENTRIES):
        j = abs(k - 1024)
        rounded = []
        for e in exp_bounds(j):
            top = (e << 24) if k > 1024 else ONE << 24
            bottom = ONE + e
            rounded.append(nearest(top, bottom))
            # how far the value stands from the nearest tie, in millionths of a unit
            rest = (2 * top + bottom) % (2 * bottom)
            far = min(rest, 2 * bottom - rest) * 1000000 // (2 * bottom)
            closest = far if closest is None else min(closest, far)
        if rounded[0] != rounded[1]:
            sys.exit(f"logistic_table: entry {k} lies too near a tie")
        table.append(rounded[0])
    if closest == 0:
        sys.exit("logistic_table: an entry lies within a millionth of a tie")
    return table, closest


def code(table):
    lines = ["// The logistic table: entry k is 2^24/(1 + e^-(k/64 - 16)) to nearest. Written by tools/logistic_table.py.",
             f"pub const TABLE: [u32; {ENTRIES}] = ["]
    row = "   "
    for word in (f" {x}," for x in table):
        if len(row + word) > WIDTH:
            lines.append(row)
            row = "   "
        row += word
    lines += [row, "];"]
    return "\n".join(lines) + "\n"


def definition(table):
    lines = ["-- \"The table has 2,049 whole numbers: entry k is 2^24/(1 + e^-(k/64 - 16)) to nearest.\" Written by tools/logistic_table.py. Definitions only.",
             "use Rattle.std.specs.Prelude.{ℕ, List, [], ◌∷◌}", "", "unfoldable pub table : List ℕ", "table ="]
    for i in range(0, ENTRIES, 16):
        row = "".join(f"{x} ∷ " for x in table[i:i + 16]).rstrip()
        lines.append("    " + row + (" []" if i + 16 >= ENTRIES else ""))
    return "\n".join(lines) + "\n"


def main():
    root = os.path.join(os.path.dirname(os.path.abspath(__file__)), "..", "crates", "logistic")
    table, closest = entries()
    files = {os.path.join(root, "src", "table.rt"): code(table), os.path.join(root, "specs", "Table.antt"): definition(table)}
    if sys.argv[1:] == ["--check"]:
        wrong = [os.path.relpath(p, root) for p, text in files.items() if not os.path.exists(p) or open(p, encoding="utf-8").read() != text]
        if wrong:
            sys.exit("logistic_table: not what this program writes: " + ", ".join(wrong))
        print(f"logistic_table: {ENTRIES} entries, both files are as written here; no entry within {closest} millionths of a unit of a tie")
    elif sys.argv[1:]:
        sys.exit(__doc__)
    else:
        for p, text in files.items():
            with open(p, "w", encoding="utf-8") as out:
                out.write(text)
        print(f"logistic_table: {ENTRIES} entries written; no entry within {closest} millionths of a unit of a tie")


main()
