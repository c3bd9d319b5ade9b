#!/usr/bin/env python3
"""page_names.py [FOLDER]

Prints each name in backticks in README.md and docs/ of FOLDER (the current one) that stands nowhere in the code: in crates, include, tools, .ci, comparison, binding, tool, oracle,
examples and vectors, comments left out. Of a path (`a::b`, `Module.name`, `folder/file.rt`) it looks for each part; of two parts `a::b` also whether b is declared in a file or a
type of the name a. Pages that speak of the past are left out (PAST). What it prints is to be read: a placeholder, a name of the library or of the Rust, and a name that the page says
is gone, are right as they stand. It changes nothing.
"""
import os
import re
import sys

TOP = sys.argv[1] if len(sys.argv) > 1 else "."
CODE = ["crates", "include", "tools", ".ci", "comparison", "binding", "tool", "oracle", "examples", "vectors", "docs/pictures"]
PAST = ("docs/PORT.md", "docs/port/", "docs/design-pass/", "docs/DESIGN-PASS.md", "docs/landings/")
NAME = r"[A-Za-z_][\w′·'-]*"


def files(below):
    for folder, folders, names in os.walk(os.path.join(TOP, below)):
        folders[:] = [inner for inner in folders if inner not in ("out", "target")]  # what rt and cargo make
        for name in names:
            yield os.path.relpath(os.path.join(folder, name), TOP)


def text(path):
    try:
        with open(os.path.join(TOP, path), encoding="utf-8") as f:
            return f.read()
    except UnicodeDecodeError:
        return ""


def uncommented(path, source):
    return re.sub(r"//[^\n]*", "", source) if path.endswith((".rt", ".rs", ".h", ".c")) else re.sub(r"^\s*--[^\n]*", "", source, flags=re.M)


sources = {path: uncommented(path, text(path)) for below in CODE for path in files(below)}
words = set()
for path, source in sources.items():
    words.update(re.findall(NAME, source), re.findall(r"[\w-]+", source), re.findall(r"\w+", source))
    for part in path.split(os.sep):
        words.update((part, os.path.splitext(part)[0]))


def declared(a, b):
    """Whether a file or a type of the name a declares b."""
    for path, source in sources.items():
        if path.endswith((".rt", ".rs")):
            holds = a in (os.path.splitext(os.path.basename(path))[0], os.path.basename(os.path.dirname(path))) or re.search(r"\b(?:struct|enum|trait|impl)\b[^{;]*\b%s\b" % a, source)
            if (holds or "crates/%s/" % a in path) and re.search(r"\b(?:fn|struct|enum|const|static|type|trait|mod) %s\b|^\s+%s\b" % (b, b), source, re.M):
                return True
    return False


pages = ["README.md"] + sorted(path for path in files("docs") if path.endswith(".md") and not path.startswith(PAST))
names = {os.path.splitext(os.path.basename(page))[0] for page in pages} | {"README", "PORT", "landings"}
for page in pages:
    for number, line in enumerate(text(page).split("\n"), 1):
        for token in re.findall(r"`([^`]+)`", line):
            for name in re.findall(NAME, token):
                if name.rstrip("-'") not in words and name not in words and name not in names:
                    print("%s:%d: %s, in `%s`" % (page, number, name, token))
            for a, b in re.findall(r"(\w+)::(\w+)\b(?!::)", token):
                if not declared(a, b):
                    print("%s:%d: %s::%s: not declared there" % (page, number, a, b))
