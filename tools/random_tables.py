#!/usr/bin/env python3
"""Random node tables that Arrow can build, as jobs of two languages.

usage: random_tables.py SEED COUNT OURS THEIRS

OURS gets a job in the language of docs/JOBS.md, one `measure` for each table.
THEIRS gets the same tables in the line format of a driver of the Rust writer:
`node PARENT KIND NULLABLE SLOTS SIZE VALIDITY OFFSETS SIZES`, `validity HEX`, `offsets32 ..`, `offsets64 ..`, `range FROM TO`, `end`.
"""
import random
import sys

WORDS = ["leaf", "struct", "list", "large_list", "fixed_size_list", "list_view", "large_list_view"]
LEAF, STRUCT, LIST, LARGE, FIXED, VIEW, LARGE_VIEW = range(7)


class Table:
    def __init__(self, rng):
        self.rng = rng
        self.nodes = []
        self.bits = []
        self.narrow = []
        self.wide = []

    def add_bits(self, bits):
        """Bits behind a gap, so that starts are not whole bytes."""
        self.bits += [self.rng.random() < 0.5 for _ in range(self.rng.randrange(0, 11))]
        start = len(self.bits)
        self.bits += bits
        return start

    def validity(self, nullable, slots):
        how = self.rng.random()
        if how < 0.3:
            return None
        if not nullable:
            return self.add_bits([True] * slots)
        rate = self.rng.choice([0.0, 0.1, 0.5, 0.9, 1.0])
        return self.add_bits([self.rng.random() >= rate for _ in range(slots)])

    def buffer(self, kind):
        return self.narrow if kind in (LIST, VIEW) else self.wide

    def put(self, buffer, numbers):
        buffer += [self.rng.randrange(0, 9) for _ in range(self.rng.randrange(0, 3))]
        start = len(buffer)
        buffer += numbers
        return start

    def lists(self, kind, slots, child):
        """Offsets, and sizes for a view, into a child of so many slots."""
        rng = self.rng
        if kind in (LIST, LARGE):
            cuts = sorted(rng.randrange(0, child + 1) for _ in range(slots + 1))
            return self.put(self.buffer(kind), cuts), 0
        firsts, sizes = [], []
        for _ in range(slots):
            first = rng.randrange(0, child + 1)
            size = rng.randrange(0, min(child - first, 6) + 1)
            firsts.append(first)
            sizes.append(size)
        return self.put(self.buffer(kind), firsts), self.put(self.buffer(kind), sizes)

    def grow(self, parent, depth, slots, left):
        """A node over `slots` slots and all below it; answers how many nodes may still come."""
        rng = self.rng
        kinds = [LEAF, LEAF, STRUCT, LIST, LARGE, FIXED, VIEW, LARGE_VIEW]
        kind = LEAF if depth == 8 or left <= 1 else rng.choice(kinds)
        nullable = rng.random() < 0.6
        me = len(self.nodes)
        node = dict(parent=parent, kind=kind, nullable=nullable, slots=slots, size=0, offsets=0, sizes=0)
        self.nodes.append(node)
        node["validity"] = self.validity(nullable, slots)
        left -= 1
        if kind == STRUCT:
            for _ in range(rng.choice([1, 1, 2, 3])):
                if left > 0:
                    left = self.grow(me, depth + 1, slots, left)
        elif kind == FIXED:
            node["size"] = rng.choice([0, 1, 1, 2, 3])
            left = self.grow(me, depth + 1, node["size"] * slots, left)
        elif kind != LEAF:
            child = rng.choice([0, slots, 2 * slots, 3 * slots + 1])
            node["offsets"], node["sizes"] = self.lists(kind, slots, child)
            left = self.grow(me, depth + 1, child, left)
        return left

    def bytes(self):
        padded = self.bits + [False] * (-len(self.bits) % 8)
        return [sum(1 << k for k in range(8) if padded[i + k]) for i in range(0, len(padded), 8)]


def ours(table, rows, name):
    lines = ["clear  # " + name]
    for i, n in enumerate(table.nodes):
        words = ["node", WORDS[n["kind"]], "nullable" if n["nullable"] else "required"]
        if i:
            words.append("parent=%d" % n["parent"])
        words += ["slots=%d" % n["slots"], "size=%d" % n["size"]]
        if n["validity"] is not None:
            words.append("validity=%d" % n["validity"])
        words += ["offsets=%d" % n["offsets"], "sizes=%d" % n["sizes"]]
        lines.append(" ".join(words))
    lines.append("validity " + " ".join("%02x" % b for b in table.bytes()))
    lines.append("offsets32 " + " ".join(map(str, table.narrow)))
    lines.append("offsets64 " + " ".join(map(str, table.wide)))
    for leaf in leaves(table):
        lines.append("measure leaf=%d rows=%d..%d" % (leaf, rows[0], rows[1]))
    return lines


def theirs(table, rows):
    lines = []
    for i, n in enumerate(table.nodes):
        parent = str(n["parent"]) if i else "-"
        validity = "-" if n["validity"] is None else str(n["validity"])
        lines.append("node %s %d %d %d %d %s %d %d" % (parent, n["kind"], n["nullable"], n["slots"], n["size"], validity, n["offsets"], n["sizes"]))
    lines.append("validity " + ("".join("%02x" % b for b in table.bytes()) or "-"))
    lines.append("offsets32 " + " ".join(map(str, table.narrow)))
    lines.append("offsets64 " + " ".join(map(str, table.wide)))
    lines.append("range %d %d" % rows)
    lines.append("end")
    return lines


def leaves(table):
    return [i for i, n in enumerate(table.nodes) if n["kind"] == LEAF]


def main():
    seed, count = int(sys.argv[1]), int(sys.argv[2])
    rng = random.Random(seed)
    with open(sys.argv[3], "w") as a, open(sys.argv[4], "w") as b:
        for i in range(count):
            table = Table(rng)
            slots = rng.choice([0, 1, 2, 5, 9, 20, 70])
            table.grow(255, 1, slots, rng.choice([1, 2, 4, 6, 10]))
            first = rng.randrange(0, slots + 1)
            rows = (first, rng.randrange(first, slots + 1)) if rng.random() < 0.5 else (0, slots)
            a.write("\n".join(ours(table, rows, "table %d" % i)) + "\n")
            b.write("\n".join(theirs(table, rows)) + "\n")


if __name__ == "__main__":
    main()
