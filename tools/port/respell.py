#!/usr/bin/env python3
"""Brings the repository's own names to the spelling of today's Rattle, after `port.py` and before any edit by hand.

usage: python3 tools/port/respell.py FOLDER     (FOLDER: the top of a checkout in which port.py has run)

A definition, lemma, field or constructor that specs/ or proofs/ declares in lower camel case is written in snake case,
wherever it stands in a .rt or .antt file: `saturatingAdd` becomes `saturating_add`. Names of functions of src/ stay. A lemma that
would then have its definition's name gets `_lem`. Two names that fall together otherwise stop the script; nothing is written then.
"""

import os
import re
import sys

NAME = r"[^\s(){}.;,@\"«»\[\]\\|⌜⌝:&]+"
DECLARED = re.compile(r"^\s*(?:(?:unfoldable|abbrev|pub|private)\s+)*(" + NAME + r"(?: " + NAME + r")*) :(?: |$)")
HEADED = re.compile(r"^\s*(?:(?:unfoldable|abbrev|pub)\s+)*(?:data|record|module) (" + NAME + ")")
TOKEN = re.compile(r"(?<![\w'ℕℤ-])[A-Za-z][\w'ℕℤ-]*")
CAMEL = re.compile(r"^[a-z].*[A-Z]")


def snake(name):
    def one(part):
        if re.match(r"[A-Z]", part):
            return part
        part = re.sub(r"([a-z0-9ℕℤ])([A-Z])", lambda m: m[1] + "_" + m[2].lower(), part)
        return re.sub(r"[A-Z]", lambda m: m[0].lower(), part)

    return "-".join(one(part) for part in name.split("-"))


def files(top):
    for folder, folders, names in os.walk(os.path.join(top, "crates")):
        folders[:] = sorted(f for f in folders if f != "out")
        for name in sorted(names):
            if name.endswith((".rt", ".antt")):
                yield os.path.join(folder, name)


def bare(path, text):
    return re.sub(r"--[^\n]*" if path.endswith(".antt") else r"//[^\n]*", "", text)


def declared(text):
    for line in text.splitlines():
        found = DECLARED.match(line) or HEADED.match(line)
        if found:
            yield from found[1].split(" ")


def main(top):
    texts = {}
    for path in files(top):
        with open(path, encoding="utf-8", newline="") as f:
            texts[path] = f.read()
    where = {}
    for path, text in texts.items():
        if path.endswith(".antt"):
            for name in declared(bare(path, text)):
                where.setdefault(name, set()).add(path)
    new = {name: snake(name) for name in where if CAMEL.match(name)}
    falls = {}
    for old, to in new.items():
        falls.setdefault(to, []).append(old)
    bad = [olds for olds in falls.values() if len(olds) > 1]
    lemmas = {}  # path -> names that get `_lem` there
    for path, text in texts.items():
        if not path.endswith(".antt"):
            continue
        words = set(TOKEN.findall(bare(path, text)))
        for old in words & set(new):
            to = new[old]
            if to in words and path in where.get(to, ()):
                lemmas.setdefault(path, set()).add(to)
                if "/proofs/" not in path:
                    bad.append([old, to, path])
    # files that import such a lemma from its module
    for path, names in list(lemmas.items()):
        crate, rest = re.match(r".*/crates/(\w+)/proofs/(.*)\.antt$", path).groups()
        module = f"Rattle.{crate}.proofs." + rest.replace("/", ".")
        for other, text in texts.items():
            for found in re.finditer(r"use " + re.escape(module) + r"\.\{([^}]*)\}", text):
                brought = {n.strip() for n in found[1].split(",")} & names
                if brought:
                    lemmas.setdefault(other, set()).update(brought)
    if bad:
        print("respell: names fall together:", bad)
        return 1
    count = 0
    for path, text in texts.items():
        mine = lemmas.get(path, ())

        def turn(m):
            word = m[0]
            if word in new:
                return new[word]
            return word + "_lem" if word in mine else word

        turned = TOKEN.sub(turn, text)
        if turned != text:
            count += 1
            with open(path, "w", encoding="utf-8", newline="") as f:
                f.write(turned)
    print(f"respell: {len(new)} names, {sum(len(v) for v in lemmas.values())} lemmas told apart, {count} files")
    for path, names in sorted(lemmas.items()):
        print("  _lem:", os.path.relpath(path, top), *sorted(names))
    return 0


if __name__ == "__main__":
    sys.exit(main(sys.argv[1]) if len(sys.argv) == 2 else (print(__doc__), 2)[1])
