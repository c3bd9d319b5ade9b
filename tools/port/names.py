#!/usr/bin/env python3
"""Prints the table of the names that changed when the repository was brought to today's Rattle (docs/port/names.tsv).

usage: python3 tools/port/names.py [BEFORE AFTER]     (two commits; without them those of the renaming scripts)
       python3 tools/port/names.py --held             every new name of the table stands in the checkout, and every other name of BEFORE too

A row is a definition, field, constructor or lemma that a file of specs/, or a file of lemmas in proofs/, declares: crate, file, name before, name after.
Both commits have the same files with the same declarations in the same order; where they have not, it says so and stops.
"""

import collections
import os
import re
import subprocess
import sys

BEFORE, AFTER = "139ef396ab71363cf79fb3f394dff67b51d20bdc", "6df3f01d6be51dd0b11afc97016cf37a1e7d9214"
TOP = os.path.join(os.path.dirname(os.path.abspath(__file__)), "..", "..")
FILE = re.compile(r"crates/\w+/(?:specs/.*|proofs/\w+)\.antt$")
NAME = r"(?:«[^»]*»|[^\s(){}.;,@\"«»\[\]\\|⌜⌝:&]+)"
DECLARED = re.compile(r"^\s*(?:(?:unfoldable|abbrev|pub|private|instance|rec)\s+)*(" + NAME + r"(?: " + NAME + r")*) :(?: |$)")
HEADED = re.compile(r"^\s*(?:(?:unfoldable|abbrev|pub)\s+)*(?:data|record|module) (" + NAME + ")")
NO_HEAD = re.compile(r"\s*(?:let|in|case|elim|λ|with|use|ghost)\s")


def git(*words, feed=None):
    return subprocess.run(["git", "-C", TOP, *words], input=feed, stdout=subprocess.PIPE, check=True).stdout


def declared(text):
    """The names that a file declares, in order."""
    names = []
    for line in re.sub(r"--[^\n]*", "", text).splitlines():
        head = HEADED.match(line)
        found = DECLARED.match(line)
        if head:
            names.append(head[1].strip("«»"))
        elif found and not NO_HEAD.match(line):
            names += [name.strip("«»") for name in re.findall(NAME, found[1])]
    return names


def at(commit):
    """What each file of definitions and lemmas declares there."""
    paths = [path for path in git("ls-tree", "-r", "--name-only", commit).decode().split("\n") if FILE.match(path)]
    data = git("cat-file", "--batch", feed="".join("%s:%s\n" % (commit, path) for path in paths).encode())
    found, i = {}, 0
    for path in paths:
        j = data.index(b"\n", i)
        size = int(data[i:j].split()[2])
        found[path] = declared(data[j + 1 : j + 1 + size].decode("utf-8"))
        i = j + 1 + size + 1
    return found


def pairs(before, after):
    old, new = at(before), at(after)
    for path, names in old.items():
        if len(names) != len(new.get(path, [])):
            sys.exit("names: %s declares %d names before and %d after" % (path, len(names), len(new.get(path, []))))
        for pair in zip(names, new[path]):
            yield (path, *pair)


def main(words):
    if words == ["--held"]:
        gone = 0
        have = {}
        for path, old, new in pairs(BEFORE, AFTER):
            if path not in have:
                full = os.path.join(TOP, path)
                have[path] = collections.Counter()
                if os.path.exists(full):
                    with open(full, encoding="utf-8") as f:
                        have[path].update(declared(f.read()))
            have[path][new] -= 1
            if have[path][new] < 0:
                gone += 1
                print("gone: %s: %s%s" % (path, new, "" if old == new else " (before: %s)" % old))
        print("names: %d gone" % gone)
        return 1 if gone else 0
    print("crate\tfile\tbefore\tafter")
    for path, old, new in pairs(*(words or [BEFORE, AFTER])):
        if old != new:
            crate, file = re.match(r"crates/(\w+)/(.*)", path).groups()
            print("\t".join([crate, file, old, new]))
    return 0


if __name__ == "__main__":
    sys.exit(main(sys.argv[1:]) if len(sys.argv) in (1, 2, 3) and "-h" not in sys.argv else (print(__doc__), 2)[1])
