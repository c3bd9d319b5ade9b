#!/usr/bin/env python3
"""Says of every edit whether it applies: the file is there, and each old text stands in it exactly once when its turn comes.

usage: python3 tools/port/edits.py [TOP]

An edit of crates/NAME/must-fail names files of crate NAME; one of crates/NAME/definition-edits names files below crates/. Each pair is applied to
what the pairs before it made, and no file is written. `\\n` in a new text of a definition-edit is the end of a line. Its status is 1 if one does not apply.
"""

import glob
import os
import sys


def pairs(path):
    """The (file, old, new) of an edit, in order."""
    file, old = "", None
    with open(path, encoding="utf-8") as f:
        for line in f.read().split("\n"):
            if line.startswith("file: "):
                file = line[len("file: ") :]
            elif line.startswith("old: "):
                old = line[len("old: ") :]
            elif line.startswith("new: "):
                yield file, old, line[len("new: ") :]


def said(path, below):
    """What is wrong with the edit, or nothing."""
    texts = {}
    any_pair = False
    for file, old, new in pairs(path):
        any_pair = True
        at = os.path.join(below, file)
        if not os.path.isfile(at):
            return "no file %s" % file
        if at not in texts:
            with open(at, encoding="utf-8") as f:
                texts[at] = f.read()
        times = texts[at].count(old) if old else 0
        if times != 1:
            return "%d times in %s: %s" % (times, file, old)
        if old == new:
            return "changes nothing: %s" % old
        texts[at] = texts[at].replace(old, new)
    return None if any_pair else "no pair of an old and a new text"


def main(top):
    counts = {}
    bad = 0
    for kind in ("must-fail", "definition-edits"):
        for path in sorted(glob.glob(os.path.join(top, "crates", "*", kind, "*.edit"))):
            crate = os.path.relpath(path, top).split(os.sep)[1]
            below = os.path.join(top, "crates", crate) if kind == "must-fail" else os.path.join(top, "crates")
            wrong = said(path, below)
            counts[kind] = counts.get(kind, 0) + 1
            if wrong:
                bad += 1
                print("%s: %s" % (os.path.relpath(path, top), wrong))
    print("edits: %s; %d do not apply" % (", ".join("%d of %s" % (n, kind) for kind, n in counts.items()), bad))
    return 1 if bad else 0


if __name__ == "__main__":
    sys.exit(main(sys.argv[1] if len(sys.argv) > 1 else os.path.join(os.path.dirname(os.path.abspath(__file__)), "..", "..")))
