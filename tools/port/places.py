#!/usr/bin/env python3
"""places.py [--list POINT] [FOLDER]

Counts in crates/*/src of FOLDER (the current one) the places of docs/DESIGN-PASS.md, by crate, and lists those of one point.
A place is what a pattern below finds in the text; a comment is no text. What a pattern cannot see is in the page's second count.

1a enum     an enum of at most three variants of which one has no field and one has; of two that both have; or with a variant `Unevaluable`
1b flag     a struct with a field present, found, refusal, ended, long, open, missed or unsynced beside other fields
1c number   a function that answers the number of a refusal, or a constant of a group of three or more that number kinds
2  twin     a function whose text is that of another one, but for names of types, functions, constants and numbers (24 words or more)
3  index    a `while`, or a `loop`
4  by hand  a function that only converts, by one match or one struct, or compares fields one by one; a test of digits or blanks
5a fact     a fact that stands in a `requires` of three or more functions of a crate
5b together a run of three or more parameters, with their types, that three or more functions of a crate share
6  buffer   a parameter or a field that is an array, with a count beside it; a table that is searched by an index
7  switch   a match of six or more arms, each of which calls one function
8  answers  answers in proofs/
"""
import argparse
import collections
import os
import re
import sys

args = argparse.ArgumentParser(description=__doc__, formatter_class=argparse.RawDescriptionHelpFormatter)
args.add_argument("folder", nargs="?", default=".")
args.add_argument("--list", default="")
args = args.parse_args()
POINTS = "1a 1b 1c 2 3 4 5a 5b 6 7 8".split()
found = {p: collections.defaultdict(list) for p in POINTS}


def uncommented(text):
    return re.sub(r"//[^\n]*", "", text)


def functions(text):
    """(name, parameters, result, clauses, body) of each function."""
    for m in re.finditer(r"^[ ]*(?:pub )?(?:const )?fn (\w+)", text, re.M):
        depth, i = 0, m.end()
        if i < len(text) and text[i] == "<":
            while True:
                depth += {"<": 1, ">": -1}.get(text[i], 0)
                i += 1
                if depth == 0:
                    break
        if text[i] != "(":
            continue
        start = i
        while True:
            depth += {"(": 1, ")": -1}.get(text[i], 0)
            i += 1
            if depth == 0:
                break
        params = text[start + 1:i - 1]
        # the body begins at the brace at the start of a line, or at the last brace of the head's only line
        rest = text[i:]
        b = re.search(r"\n[ ]*\{\n|\n[ ]*\{ [^\n]*\}\n|[^\n]* \{\n", rest)
        if not b:
            continue
        head = rest[:b.start()] if b.group().startswith("\n") else ""
        result = re.match(r"\s*->\s*([^\n{]*)", rest)
        j = b.end() - 1 if b.group().rstrip().endswith("{") else b.start()
        k = rest.index("{", b.start() if b.group().startswith("\n") else b.end() - 3)
        depth, e = 0, k
        while True:
            depth += {"{": 1, "}": -1}.get(rest[e], 0)
            e += 1
            if depth == 0:
                break
        yield m.group(1), params, (result.group(1).strip() if result else ""), head, rest[k:e]


def clauses(head):
    for c in re.findall(r"^[ ]*requires(?: \w+)? \{ (.*) \}$", head, re.M):
        depth, part = 0, ""
        for ch in c:
            depth += {"(": 1, ")": -1, "{": 1, "}": -1}.get(ch, 0)
            if ch == "×" and depth == 0:
                yield part
                part = ""
            else:
                part += ch
        yield part


def fact(text):
    t = text.strip()
    while t.startswith("(") and t.endswith(")") and t[1:-1].count("(") == t[1:-1].count(")"):
        t = t[1:-1].strip()
    return re.sub(r"\.(now|old|new)\b", "", t)


def shape(body):
    t = re.sub(r'"[^"]*"', "S", body)
    words = re.findall(r"[A-Za-z_]\w*|\d\w*|[^\s\w]", t)
    keep = {"if", "else", "match", "while", "for", "in", "return", "let", "mut", "true", "false", "as", "loop", "self"}
    names, out = {}, []
    for w in words:
        if re.match(r"[A-Za-z_]", w) and w not in keep:
            out.append(names.setdefault(w, f"n{len(names)}"))
        else:
            out.append("0" if w[0].isdigit() else w)
    return out


crates = sorted(d for d in os.listdir(os.path.join(args.folder, "crates")) if os.path.isdir(os.path.join(args.folder, "crates", d, "src")))
for crate in crates:
    base = os.path.join(args.folder, "crates", crate)
    shapes, facts, runs = collections.defaultdict(list), collections.defaultdict(set), collections.defaultdict(set)
    for root, _, files in sorted(os.walk(os.path.join(base, "src"))):
        for name in sorted(files):
            if not name.endswith(".rt"):
                continue
            path = os.path.join(root, name)
            place = os.path.relpath(path, os.path.join(args.folder, "crates"))
            text = uncommented(open(path, encoding="utf8").read())
            for m in re.finditer(r"enum (\w+) \{\n(.*?)\n\}", text, re.S):
                variants = re.findall(r"^    (\w+)(\(|\s*\{|,| =)", m.group(2), re.M)
                empty = [v for v, k in variants if k == ","]
                full = [v for v, k in variants if k not in (",", " =")]
                if (len(variants) <= 3 and empty and full) or (len(variants) == 2 and len(full) == 2) or "Unevaluable" in [v for v, _ in variants]:
                    found["1a"][crate].append(f"{place} enum {m.group(1)}")
            for m in re.finditer(r"struct (\w+)(?:<[^>]*>)? \{\n(.*?)\n\}", text, re.S):
                fields = re.findall(r"^    (?:pub )?(\w+):", m.group(2), re.M)
                flags = [f for f in fields if f in ("present", "found", "refusal", "ended", "long", "open", "missed", "unsynced")]
                if flags and len(fields) > 1:
                    found["1b"][crate].append(f"{place} struct {m.group(1)}: {', '.join(flags)}")
                if "count" in fields and re.search(r"\[[\w:]+; \w+\]", m.group(2)) or ("queued" in fields):
                    found["6"][crate].append(f"{place} struct {m.group(1)}")
            consts = re.findall(r"^(?:pub )?const (\w+): (u32|usize) = (\d+);", text, re.M)
            numbered = [c for c, _, n in consts if int(n) < 64 and not re.search(r"MAX|WORDS|ROOM|SIZE|LEAST|DUE|NAME|RULE$|BITS", c)]
            if len(numbered) >= 3:
                found["1c"][crate] += [f"{place} const {c}" for c in numbered]
            for f, params, result, head, body in functions(text):
                inner = body
                if re.search(r"refusal|^refuse$", f) and result == "u32":
                    found["1c"][crate].append(f"{place} fn {f}")
                found["3"][crate] += [f"{place} fn {f}"] * len(re.findall(r"\b(?:while\b|loop \{)", inner))
                s = shape(inner)
                if len(s) >= 24:
                    shapes[" ".join(s)].append(f"{place} fn {f}")
                for c in clauses(head):
                    facts[fact(c)].add(f)
                ps = [re.sub(r"\s+", " ", p.strip()) for p in re.split(r",(?![^<\[(]*[>\])])", params) if p.strip()]
                for i in range(len(ps)):
                    for j in range(i + 3, len(ps) + 1):
                        runs[tuple(ps[i:j])].add(f)
                if any(re.search(r": \[\w+; \w+\]$", p) for p in ps) and any(re.match(r"(n|count): usize", p) for p in ps):
                    found["6"][crate].append(f"{place} fn {f}")
                stripped = inner.strip("{} \n")
                if (re.match(r"(let kind = \w+\.kind;\s*)?match \w+(\.\w+)? \{", stripped) and stripped.endswith("}") and not re.search(r"\w\((?!\w*\.?\w*\))[^)]*,", re.sub(r"[A-Z]\w*::?\w*\([^)]*\)", "", stripped)) and len(re.findall(r"=>", stripped)) >= 3 and not re.search(r"[a-z_]\(", re.sub(r"words::\w+\(", "", stripped))) or re.search(r"(?:4[89]|57|32) [<=]=? ?\w|\w+ [<=]=? (?:48|57|32)\b", stripped) or f in ("number_of", "values_of", "mark", "same", "mode_of"):
                    found["4"][crate].append(f"{place} fn {f}")
                for m in re.finditer(r"match [^{]*\{(.*)\}", inner, re.S):
                    arms = re.findall(r"=>\s*(?:\{\s*)?([a-z_][\w:]*)\(", m.group(1))
                    if len(arms) >= 6:
                        found["7"][crate].append(f"{place} fn {f}: {len(arms)} arms")
                    break
    for group in shapes.values():
        if len(group) > 1:
            found["2"][crate] += group
    for c, fs in facts.items():
        if len(fs) >= 3 and c:
            found["5a"][crate].append(f"{len(fs)} functions: {c}")
    longest = {}
    for r, fs in runs.items():
        if len(fs) >= 3 and not any(set(r) < set(q) and runs[q] >= fs for q in runs if len(q) > len(r)):
            longest[r] = fs
    for r, fs in longest.items():
        found["5b"][crate].append(f"{len(fs)} functions: {', '.join(r)}")
    for root, _, files in os.walk(os.path.join(base, "proofs")):
        if "Answers.antt" in files:
            text = open(os.path.join(root, "Answers.antt"), encoding="utf8").read()
            found["8"][crate] += [f"{crate} {m}" for m in re.findall(r"^pub ([\w\-]+) : goal\.", text, re.M)]

if args.list:
    for crate in crates:
        for line in found[args.list][crate]:
            print(line)
    sys.exit()
print("| crate | " + " | ".join(POINTS) + " |")
print("|---|" + "---|" * len(POINTS))
for crate in crates:
    counts = [len(found[p][crate]) for p in POINTS]
    if any(counts[:-1]) or counts[-1]:
        print(f"| {crate} | " + " | ".join(str(c) for c in counts) + " |")
print("| all | " + " | ".join(str(sum(len(v) for v in found[p].values())) for p in POINTS) + " |")
