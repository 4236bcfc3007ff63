#!/usr/bin/env python3
"""Compares what `levels` measured with the streams that the Rust writer gave for the same tables.

usage: compare_counts.py THEIRS_OUT OURS_OUT

THEIRS_OUT has, for each table, a line `leaf NODE D LEVELS R LEVELS P POSITIONS` a leaf and then `done`.
OURS_OUT has the lines of `measure`, in the same order. Ends with status 1 where they differ.
"""
import re
import sys


def their_counts(path):
    for line in open(path):
        if not line.startswith("leaf "):
            if line.strip() != "done":
                yield None, line.strip()
            continue
        leaf, d, p = re.match(r"leaf (\d+) D ?(.*?) R .*? ?P ?(.*)$", line.rstrip("\n")).groups()
        values = len(p.split())
        entries = values if d == "absent" else len(d.split())
        yield (int(leaf), entries, values), line.strip()


def our_counts(path):
    for line in open(path):
        m = re.match(r"measure leaf=(\d+) .* -> ok entries=(\d+) values=(\d+)$", line.rstrip("\n"))
        if m:
            yield tuple(map(int, m.groups())), line.strip()
        elif line.startswith("measure "):
            yield None, line.strip()


def main():
    theirs, ours = list(their_counts(sys.argv[1])), list(our_counts(sys.argv[2]))
    different = [(a, b) for a, b in zip(theirs, ours) if a[0] != b[0] or a[0] is None]
    for a, b in different[:10]:
        print("the Rust:", a[1][:200])
        print("levels:  ", b[1][:200])
    same = len(theirs) == len(ours) and not different
    entries = sum(a[0][1] for a in theirs if a[0])
    print("%d leaves compared, %d entries, %d differences" % (len(theirs), entries, len(different)))
    sys.exit(0 if same else 1)


if __name__ == "__main__":
    main()
