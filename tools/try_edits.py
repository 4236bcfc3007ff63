#!/usr/bin/env python3
"""Tries edits that a check must refuse, one at a time, in a copy of the repository.

usage: try_edits.py COPY CRATE EDIT..

COPY is a copy of the repository that may be changed (with what checks left in its out/ folders, so that each try takes seconds and not minutes);
an EDIT is a file of three lines, `file: PATH`, `old: TEXT`, `new: TEXT`, as in crates/CRATE/must-fail.
The gate tries those in must-fail/ from nothing; tools/edits has more of the same kind.
"""
import subprocess
import sys


def parts(path):
    fields = dict(line.rstrip("\n").split(": ", 1) for line in open(path) if ": " in line)
    return fields["file"], fields["old"], fields["new"]


def refused(copy, crate):
    """The first function that is no longer proved, or None where all still are."""
    out = subprocess.run(["rt", "check"], cwd="%s/crates/%s" % (copy, crate), capture_output=True, text=True).stdout.split("\n")
    left = [line for line in out if line.startswith("fn ") and not line.endswith(": proved")]
    if any(line.startswith("logic=proved") for line in out[-3:]):
        return None
    return left[0][:120] if left else "(see the check)"


def main():
    copy, crate = sys.argv[1], sys.argv[2]
    survived = 0
    for edit in sys.argv[3:]:
        name, old, new = parts(edit)
        path = "%s/crates/%s/%s" % (copy, crate, name)
        text = open(path).read()
        if text.count(old) != 1:
            print("%s: the old text stands %d times" % (edit, text.count(old)))
            survived += 1
            continue
        open(path, "w").write(text.replace(old, new))
        at = refused(copy, crate)
        open(path, "w").write(text)
        survived += at is None
        print("%s: %s" % (edit, "STILL PROVED" if at is None else "refused, " + at), flush=True)
    sys.exit(1 if survived else 0)


if __name__ == "__main__":
    main()
