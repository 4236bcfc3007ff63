#!/usr/bin/env python3
"""Brings the repository's own definitions and lemmas to today's spelling, once.

usage: respell.py [--look]      at the top of the repository, after the kit's own script

A fact or a record is in upper camel case, everything else in snake case. A dash stays only in a lemma that joins the names of two definitions,
the outer one first, as in `spread-append`, and a lemma that would have the name of a function of its crate gets `_lem`. Functions of src/, strings,
inputs and outputs keep their names. With --look it changes nothing, and prints the renamings and the places where two names would fall together.
"""
import os
import re
import sys

# words of lists and numbers in the library, which a lemma's name may join to a definition of ours
LIBRARY = {"append", "cons", "drop", "take", "set", "length", "map", "replicate", "reverse", "insert", "snoc", "sum", "some", "get_or"}
SPLIT = re.compile(r'([^\s(){}\[\];,.:"|]+)')
DECLARED = re.compile(r"^( *)((?:abbrev |unfoldable |pub )*)([^\s:({]+) : ")
TYPE = re.compile(r"^( *)(?:(?:abbrev|unfoldable|pub) )*(?:record|data) ([^\s:({]+)")
FUNCTION = re.compile(r"\bfn ([a-z_0-9]+)")


def files(*ends):
    for folder, inner, names in sorted(os.walk(".")):
        inner[:] = sorted(d for d in inner if d not in ("out", ".git", "target"))
        for name in sorted(names):
            if name.endswith(ends):
                yield os.path.join(folder, name)[2:]


def own_names():
    """The names that the repository's antt files declare, and whether each is a type, a field, a fact, a word or a lemma, by file."""
    found = {}
    for path in files(".antt"):
        record = None
        for line in open(path, encoding="utf-8"):
            indent = len(line) - len(line.lstrip(" "))
            if record is not None and line.strip() and indent <= record:
                record = None
            kind = TYPE.match(line)
            if kind:
                record = indent
                found.setdefault(kind.group(2), set()).add(("type", path))
                continue
            declared = DECLARED.match(line)
            if not declared or ": goal." in line or declared.group(3) in ("use", "let", "in", "--", "λ"):
                continue
            if record is not None:
                sort = "field"
            elif "abbrev" in declared.group(2) and re.search(r"→ Type 0$", line.rstrip()):
                sort = "fact"
            elif "abbrev" in declared.group(2) or "unfoldable" in declared.group(2):
                sort = "word"
            else:
                sort = "lemma"
            found.setdefault(declared.group(3), set()).add((sort, path))
    return found


def functions():
    """The names of the functions in src/, by crate."""
    found = {}
    for path in files(".rt"):
        found.setdefault(path.split("/")[1], set()).update(FUNCTION.findall(open(path, encoding="utf-8").read()))
    return found


def snake(name):
    return re.sub(r"(?<=[a-z0-9])([A-Z])", lambda m: "_" + m.group(1).lower(), name)


def spelled(name, uses, words, fns):
    if name[:1].isupper():
        return re.sub(r"-(.)", lambda m: m.group(1).upper(), name)
    if any(kind == "fact" for kind, _ in uses):
        return "".join(part[:1].upper() + part[1:] for part in re.split("[-_]", name))
    parts = [snake(p) for p in name.replace("getD", "get_or").split("-")]
    if {kind for kind, _ in uses} == {"lemma"}:
        if any("_".join(parts) in fns.get(path.split("/")[1], set()) for _, path in uses):
            return "_".join(parts) + "_lem"
        for cut in range(1, len(parts)):
            left, right = "_".join(parts[:cut]), "_".join(parts[cut:])
            if left in words and right in words | LIBRARY:
                return left + "-" + right
    return "_".join(parts)


def renamings():
    own = own_names()
    words = {snake(n).replace("-", "_") for n, uses in own.items() if any(k in ("word", "fact") for k, _ in uses)}
    table, fns = {}, functions()
    for name, uses in own.items():
        new = spelled(name, uses, words, fns)
        if new != name and not name.startswith("◌"):
            table[name] = new
    return own, table


def respell(text, table, fields):
    parts = SPLIT.split(text)
    for at in range(1, len(parts), 2):
        token = parts[at]
        if token in table and not (parts[at - 1].endswith(".") and token not in fields):
            parts[at] = table[token]
    return "".join(parts)


def main():
    look = "--look" in sys.argv
    own, table = renamings()
    fields = {n for n, uses in own.items() if any(k == "field" for k, _ in uses)}
    if look:
        for name in sorted(table):
            print(name, "->", table[name], sorted({k for k, _ in own[name]}))
    for path in files(".antt", ".rt", ".edit"):
        text = open(path, encoding="utf-8").read()
        tokens = set(SPLIT.findall(text))
        used = {t for t in tokens if t in table}
        for token in sorted(used):
            if table[token] in tokens or any(table[o] == table[token] and o != token for o in used):
                print("falls together: %s: %s -> %s" % (path, token, table[token]))
        for spot in re.findall(r"\.([^\s(){}\[\];,.:\"|]+)", text) if look else []:
            if spot in table and spot not in fields:
                print("kept behind a dot: %s: %s" % (path, spot))
        new = respell(text, table, fields)
        if new != text and not look:
            open(path, "w", encoding="utf-8").write(new)
    print("%d names" % len(table))


if __name__ == "__main__":
    main()
