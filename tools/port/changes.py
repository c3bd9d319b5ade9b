#!/usr/bin/env python3
"""changes.py LISTED > docs/design-pass/CHANGES.md

LISTED is a file with what `port/contracts.py OLD NEW --json` of the toolchain prints, where OLD is a checkout of the commit at which the pass began. Sorts it by crate,
old and new one below the other, whole. What has the old text once none and some are the library's None and Some, get_elem? its slice_get, and a jump an Option, is named only.
"""
import collections
import json
import re
import sys

listed = json.load(open(sys.argv[1], encoding="utf8"))


def renamed(text):
    for a, b in ((r"\bnone-ne-some\b", "none-some"), (r"\bsome-injective\b", "same_Some"), (r"get_elem\?", "slice_get"), (r"NoJump", "None")):
        text = re.sub(a, b, text)
    return re.sub(r"(?<![\w\-.'])(none|some)(?![\w\-'])", lambda m: m.group(1).capitalize(), text)


def flat(text):
    return re.sub(r"\s+", " ", text).strip()


def clauses(requires, ensures):
    """The clauses of a contract, a line each."""
    return [flat(f"{kind} {label + ' ' if label else ''}{{ {text} }}") for kind, cs in (("requires", requires), ("ensures", ensures)) for label, text in cs]


gone, same, changed = collections.defaultdict(list), collections.defaultdict(list), collections.defaultdict(list)


def split(name):
    crate, _, rest = name.partition(" ")
    return crate, rest


def put(crate, what, old, new):
    """Only the lines that differ are shown; a change that is the Option's alone is named."""
    if [renamed(o) for o in old] == new:
        same[crate].append(what.split("`")[1])
        return
    changed[crate].append((what, [o for o in old if renamed(o) not in new], [n for n in new if n not in [renamed(o) for o in old]]))


for name in listed["functions not found again"]:
    crate, rest = split(name)
    gone[crate].append(re.sub(r" \(requires.*", "", rest))
for crate, kind, name in listed["ghost items and constants"]["gone"]:
    gone[crate].append(f"{kind} {name}")
for crate, name in listed["definitions"]["gone"]:
    gone[crate].append(name)
for name, old, new in listed["signatures changed"]:
    crate, rest = split(name)
    put(crate, f"signature `{rest}`", [flat(old)], [flat(new)])
for name, old_requires, old_ensures, new_requires, new_ensures in listed["contracts changed"]:
    crate, rest = split(name)
    put(crate, f"contract `{rest}`", clauses(old_requires, old_ensures), clauses(new_requires, new_ensures))
for crate, kind, name, old, new in listed["ghost items and constants"]["changed"]:
    put(crate, f"{kind} `{name}`", [flat(o) for o in old], [flat(n) for n in new])
for crate, name, old, new in listed["definitions"]["changed"]:
    put(crate, f"definition `{name}`", [flat(o) for o in old], [flat(n) for n in new])
for crate, name, old, new in listed["edits and outputs"]["changed"]:
    put(crate, f"edit `{name}`", [flat(old)], [flat(new)])

print("# What the design pass changed\n")
print("Made by `tools/port/changes.py`, which says how. The counts, old and new:\n")
for key in ("functions", "with ensures"):
    print(f"- {key}: {listed[key][0]}, {listed[key][1]}")
print(f"- contracts: the same {listed['contracts the same']}, changed {len(listed['contracts changed'])}; signatures changed {len(listed['signatures changed'])}; functions not found again by name {len(listed['functions not found again'])}")
for key in ("ghost items and constants", "definitions", "edits and outputs"):
    part = listed[key]
    print(f"- {key}: {part['old']}, {part['new']}; the same {part['same']}, changed {len(part['changed'])}, gone {len(part['gone'])}")
print("\nOf a contract the clauses that differ are shown, old and new. GONE.md has what is gone, and what states its promise now.")
for crate in sorted(set(gone) | set(same) | set(changed)):
    print(f"\n## {crate}\n")
    if gone[crate]:
        print("Gone: " + ", ".join(f"`{g}`" for g in gone[crate]) + "\n")
    if same[crate]:
        print("The same but for the library's Option: " + ", ".join(f"`{s}`" for s in same[crate]) + "\n")
    for what, old, new in changed[crate]:
        print(f"- {what}")
        for o in old:
            print(f"  - old: `{o}`")
        for n in new:
            print(f"  - new: `{n}`")
