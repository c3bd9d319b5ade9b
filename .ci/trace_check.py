#!/usr/bin/env python3
"""trace_check.py [TOP]: holds docs/SPECIFICATION.md, docs/TWINS.md, docs/ARCHITECTURE.md and the pages of docs/trace to the repository.

Every definition, theorem, script and edit that they name exists; every numbered paragraph of the specification names a definition or a theorem, and
has a row in docs/trace/DEFINITIONS.md or docs/trace/REFUSALS.md. Prints what is missing; its status is 1 then.
"""
import os
import re
import sys

TOP = sys.argv[1] if len(sys.argv) > 1 else os.path.join(os.path.dirname(os.path.abspath(__file__)), "..")
NAMING = ["docs/TWINS.md", "docs/ARCHITECTURE.md"]  # pages whose names must exist, and that have no rows
PAGES = ["docs/trace/DEFINITIONS.md", "docs/trace/REFUSALS.md", "docs/trace/EDITS.md"]


def text(path):
    with open(os.path.join(TOP, path), encoding="utf-8") as f:
        return f.read()


def files(suffix, below):
    for folder, folders, names in os.walk(os.path.join(TOP, below)):
        folders[:] = [inner for inner in folders if inner not in ("out", "target")]  # what rt and cargo make
        for name in names:
            if name.endswith(suffix):
                yield os.path.relpath(os.path.join(folder, name), TOP)


def defined(source):
    """The names that a file of specs or proofs declares."""
    names = set(re.findall(r"^\s*(?:unfoldable |abbrev )?(?:pub )?([^\s:(){}]+) :", source, re.M))
    names |= set(re.findall(r"^\s*(?:pub )?(?:record|data) ([^\s(:]+)", source, re.M))
    for line in re.findall(r"^  ((?:[A-Za-z][\w-]* )+):", source, re.M):
        names |= set(line.split())
    return {name.strip("«»") for name in names}


def tables():
    modules, proved, functions, types = {}, set(), {}, set()
    for path in files(".antt", "crates"):
        crate, kind = path.split(os.sep)[1:3]
        names = defined(text(path))
        stem = os.path.splitext(os.path.basename(path))[0]
        modules.setdefault(stem, set()).update(names)
        if kind == "proofs":
            proved |= names
    for path in files(".rt", "crates"):
        crate = path.split(os.sep)[1]
        source = text(path)
        functions.setdefault(crate, set()).update(re.findall(r"\bfn (\w+)", source))
        functions[crate] |= set(re.findall(r"\b(?:struct|enum|const) (\w+)", source))
        functions[crate].add(os.path.splitext(os.path.basename(path))[0])
    return modules, proved, functions


def missing_names(page, source, modules, functions):
    for token in re.findall(r"`([^`\n]+)`", source):
        found = re.fullmatch(r"([A-Z]\w*)\.([A-Za-z_][\w·′-]*)", token)
        if token in ("Module.name", "crates/model/specs/Module.antt", "model::Name", "crate::name"):
            continue  # how a row is read
        if found and found.group(1) in modules:
            if found.group(2) not in modules[found.group(1)] and found.group(2) != "antt":
                yield "%s: `%s`: no such definition" % (page, token)
        elif found and found.group(2) not in ("antt", "md", "rs", "rt", "py"):
            yield "%s: `%s`: no such module" % (page, token)
        found = re.fullmatch(r"([a-z]\w*)::([\w:]+)", token)
        if found and found.group(1) in functions:
            name = found.group(2).split("::")[-1]
            if name not in functions[found.group(1)]:
                yield "%s: `%s`: no such function or type" % (page, token)
        if re.fullmatch(r"(crates|docs|examples|oracle|include|\.ci|tool|comparison|binding|vectors)/[\w./-]+", token) and "*" not in token:
            if not os.path.exists(os.path.join(TOP, token)) and "/target/" not in token:
                yield "%s: `%s`: no such file" % (page, token)


def named_lists(page, source, word, exists):
    """The names behind `word`, as in "scripts a, b and c"."""
    for run in re.findall(r"\b%ss? ((?:[a-z0-9][\w-]*(?:, | and |\b))+)" % word, source):
        for name in re.split(r", | and ", run.strip()):
            name = name.strip()
            name = name.rstrip(",")
            if name and "-" in name and not exists(name) and not any(script.startswith(name) for script in scripts_of()):
                yield "%s: %s %s: not there" % (page, word, name)


def scripts_of():
    return [os.path.splitext(os.path.basename(p))[0] for p in list(files(".script", "oracle/edges")) + list(files(".script", "examples"))]


def main():
    modules, proved, functions = tables()
    wrong = []
    specification = text("docs/SPECIFICATION.md")
    numbers = re.findall(r"^(\d+\.\d+) ", specification, re.M)
    if len(set(numbers)) != len(numbers):
        wrong.append("docs/SPECIFICATION.md: a number stands twice")
    for paragraph in re.split(r"\n\n+", specification):
        found = re.match(r"(\d+\.\d+) ", paragraph)
        if found and not re.search(r"`[A-Z]\w*\.[A-Za-z]", paragraph) and "`" not in paragraph and not found.group(1).startswith("1."):
            wrong.append("docs/SPECIFICATION.md: %s names nothing" % found.group(1))
    pages = [page for page in PAGES if os.path.exists(os.path.join(TOP, page))]
    wrong += ["%s: not there" % page for page in PAGES if page not in pages]
    scripts = set(scripts_of())
    for page in ["docs/SPECIFICATION.md"] + NAMING + pages:
        source = text(page)
        wrong += missing_names(page, source, modules, functions)
        if page in pages:
            wrong += named_lists(page, source, "script", lambda name: name in scripts)
    keyed = set()
    for page in pages[:2]:
        for row in re.findall(r"^\| ([\d., ]+) \|", text(page), re.M):
            keyed |= set(re.split(r", ", row.strip()))
    wrong += ["docs/trace: paragraph %s has no row" % n for n in numbers if n not in keyed]
    wrong += ["docs/trace: a row names paragraph %s, which is not there" % n for n in sorted(keyed - set(numbers) - {"-"})]
    edits = {os.path.splitext(os.path.basename(p))[0] for p in files(".edit", "crates")}
    if "docs/trace/EDITS.md" in pages:
        source = text("docs/trace/EDITS.md")
        wrong += ["docs/trace/EDITS.md: edit %s is not named" % edit for edit in sorted(edits) if edit not in source]
    for line in wrong:
        print(line)
    print("trace: %d paragraphs, %d pages, %d things missing" % (len(numbers), len(pages), len(wrong)))
    return 1 if wrong else 0


if __name__ == "__main__":
    sys.exit(main())
