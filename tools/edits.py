#!/usr/bin/env python3
"""See that every must-fail edit still finds what it changes: each `old:` text stands exactly once in its file.

    tools/edits.py

An edit that a change of the code has left behind is said here in a second, and not by `rt ci` after all the proofs.
"""
import glob
import os
import sys

ROOT = os.path.dirname(os.path.dirname(os.path.abspath(__file__)))


def pairs(edit):
    """The file, the old and the new text of each replacement."""
    path = old = None
    for line in open(edit):
        word, _, rest = line.rstrip("\n").partition(":")
        if word == "file":
            path = rest[1:]
        elif word == "old":
            old = rest[1:]
        elif word == "new":
            yield path, old, rest[1:]


def fault(edit):
    """What keeps an edit from being applied, if anything does."""
    crate = os.path.dirname(os.path.dirname(edit))
    texts, count = {}, 0
    for path, old, new in pairs(edit):
        if path not in texts:
            if not os.path.isfile(os.path.join(crate, path)):
                return f"there is no {path}"
            texts[path] = open(os.path.join(crate, path)).read()
        found = texts[path].count(old)
        if found != 1:
            return f"stands {found} times in {path}: {old.strip()}"
        texts[path] = texts[path].replace(old, new)
        count += 1
    return None if count else "it changes nothing"


def main():
    edits = sorted(glob.glob(os.path.join(ROOT, "crates", "*", "must-fail", "*.edit")))
    faults = [(edit, fault(edit)) for edit in edits]
    faults = [(edit, said) for edit, said in faults if said]
    for edit, said in faults:
        print(f"{os.path.relpath(edit, ROOT)}: {said}")
    return 1 if faults else 0


sys.exit(main())
