#!/usr/bin/env python3
"""Lists the places in crates/*/src that may be written in an older form of the language, a list for each point of docs/DESIGN-PASS.md.

usage: places.py [ROOT] [POINT..]

ROOT is a checkout (this one by default); a POINT is 1 to 8 (all by default). A line that is listed is a place to look at, not a fault.
"""
import os
import re
import sys

KEYWORDS = set("fn let mut if else match for in while loop return pub impl self Self break continue as move ref true false Some None Ok Err".split())


def sources(root):
    for folder in sorted(os.listdir(root + "/crates")):
        top = "%s/crates/%s/src" % (root, folder)
        for where, _, names in sorted(os.walk(top)):
            for name in sorted(names):
                if name.endswith(".rt"):
                    path = where + "/" + name
                    yield folder, path[len(root) + 1:], open(path).read().split("\n")


def code(line):
    return line.split("//")[0]


def grep(root, patterns):
    found = []
    for _, path, lines in sources(root):
        tests = False
        for number, line in enumerate(lines, 1):
            tests = tests or "#[cfg(test)]" in line
            if not tests and any(re.search(p, code(line)) for p in patterns):
                found.append("%s:%d: %s" % (path, number, line.strip()))
    return found


def functions(lines):
    """The line of each function, its name, its parameters, and its body without clauses."""
    i = 0
    while i < len(lines):
        head = re.match(r"\s*(?:pub(?:\(crate\))? )?(?:const )?fn (\w+)", lines[i])
        if not head:
            i += 1
            continue
        start, text = i, []
        indent = len(lines[i]) - len(lines[i].lstrip())
        while i < len(lines) and lines[i] != " " * indent + "}" and not (i > start and lines[i].rstrip().endswith("};") and "ensures" in lines[i]):
            if i > start and re.match(r"\s*(?:pub )?fn ", lines[i]) and len(lines[i]) - len(lines[i].lstrip()) <= indent:
                i -= 1
                break
            if not re.match(r"\s*(requires|ensures)", lines[i]):
                text.append(code(lines[i]))
            i += 1
        yield start + 1, head.group(1), "\n".join(text)
        i += 1


def shape(text):
    tokens = re.findall(r"\w+|[^\s\w]", text)
    return " ".join(t if t in KEYWORDS or not re.match(r"\w", t) else "x" for t in tokens)


def twins(root):
    groups = {}
    for _, path, lines in sources(root):
        for number, name, text in functions(lines):
            if "{" in text and len(text.split("\n")) >= 4:
                groups.setdefault(shape(text.split("{", 1)[1]), []).append("%s:%d: fn %s" % (path, number, name))
    return [place for group in groups.values() if len(group) > 1 for place in group]


def clauses(root):
    """Clauses that stand in three functions of a crate or more."""
    found = {}
    for crate, path, lines in sources(root):
        for number, line in enumerate(lines, 1):
            clause = re.match(r"\s*(requires|ensures)[^{]*\{(.*)\}\s*;?\s*$", line)
            if clause:
                text = re.sub(r"\.(now|old|new|entry)\b", "", clause.group(2)).strip()
                found.setdefault((crate, text), []).append("%s:%d: %s" % (path, number, line.strip()))
    return [place for group in found.values() if len(group) > 2 for place in group]


def parameters(root):
    """Three parameters or more that three functions of a crate or more share."""
    found = {}
    for crate, path, lines in sources(root):
        for number, name, text in functions(lines):
            head = text.split("->")[0].split("{")[0]
            given = frozenset(re.findall(r"(\w+): ([^,)]+)", head))
            if len(given) >= 3:
                found.setdefault(crate, []).append(("%s:%d: fn %s" % (path, number, name), given))
    places = []
    for crate, group in found.items():
        for place, given in group:
            if sum(len(given & other) >= 3 for _, other in group) > 2:
                places.append(place)
    return places


def answers(root):
    found = []
    for where, _, names in sorted(os.walk(root + "/crates")):
        if "/out" in where or "/proofs" not in where:
            continue
        for name in names:
            if name == "Answers.antt":
                for line in open(where + "/" + name):
                    if re.match(r"pub \S+ : goal\.", line):
                        found.append("%s: %s" % ((where + "/" + name)[len(root) + 1:], line.strip()))
    return found


POINTS = {
    "1": [
        ("enums", lambda r: grep(r, [r"^\s*(pub )?enum \w+"])),
        ("flags", lambda r: grep(r, [r"let mut \w+(: bool)? = (true|false);", r"^\s*(pub )?\w+: bool,", r"-> bool$", r"let (last|first|there|\w*rises) = match"])),
        ("numbers for kinds and refusals", lambda r: grep(r, [r"^\s*\d+ => ", r"::\w+ => \d+,", r"\.kind [!=]= \d", r"Ok\(\d\)$", r"(kind|code): u8", r"-> u8$", r"255"])),
        ("results taken apart and made again", lambda r: grep(r, [r"Err\((\w+)\) => (return )?Err\(", r"Err\(_\) =>", r"None => (return )?None", r"None => (return )?Ok\(None\)", r"Ok\((\w+)\) => Ok\(\1\)", r"Some\((\w+)\) => Some\("])),
    ],
    "2": [("functions of one shape", twins)],
    "3": [("loops", lambda r: grep(r, [r"^\s*('\w+: )?(while|loop)\b", r"\bfor \w+ in [^{]*\.\."])), ("counts by hand", lambda r: grep(r, [r"\b\w+ [+-]= 1;"]))],
    "4": [
        (
            "equality, order, copying, conversion and printing by hand",
            lambda r: grep(r, [r"fn (of|code|name|word|words|is_word|behind|vacant|widened|raised|unused|positive|negative|plain|above|hex_digit|shifted)\b", r"fn \w*(_name|_word|show\w*)\b", r"fn (show|fmt|from|eq|cmp|clone)\b"]),
        )
    ],
    "5": [("clauses that repeat", clauses), ("parameters that travel together", parameters)],
    "6": [("arrays and buffers", lambda r: grep(r, [r"\[\w+; \w+\]", r"&'?\w* ?mut \[", r"^\s*(pub )?(count|depth|total|length): ", r": Vec<"]))],
    "7": [("switches", lambda r: grep(r, [r"\} else if ", r"\bmatch (self|make|case|kind|\w+\.kind)\b", r"\bdyn\b", r"\bFn(Mut|Once)?\("]))],
    "8": [("answers", answers)],
}


def main():
    args = sys.argv[1:]
    root = args.pop(0) if args and not args[0].isdigit() else os.path.dirname(os.path.dirname(os.path.abspath(__file__)))
    for point in args or sorted(POINTS):
        for what, find in POINTS[point]:
            found = find(root)
            print("point %s, %s: %d" % (point, what, len(found)))
            if args and point != "8":
                for place in found:
                    print("    " + place)


if __name__ == "__main__":
    main()
