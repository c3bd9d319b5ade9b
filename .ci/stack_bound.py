#!/usr/bin/env python3
"""The stack that each exported function of a static library needs at most, for every input, computed from its machine code (x86-64).

    stack_bound.py LIBRARY [--levels FUNCTION=N ..] [--page FILE [--cited FILE ..]] [--most BYTES FUNCTION .. ..] [--paths]

The depth of the stack pointer is followed along the code of every function, through jumps, jump tables and probe loops, so that it is known at
each call. The bound of an exported function is the greatest sum of depths over the graph of calls. Calls must be direct.

    --levels FUNCTION=N   at most N activations of FUNCTION are on the stack at once: a cycle of calls must pass through such a function
    --page FILE           the rows "| `function` | bytes |" of a page of documentation: each exported function must have one, and stay within it
    --cited FILE          another page that must have each of these figures behind the function's name (without cerambiu_)
    --most BYTES FUNCTION ..
                          a limit for these functions, whatever the page says: each exported function must have one, if any has
    --paths               print the worst path of each exported function

A figure counts from the caller's stack pointer before the call: the return address is in. Not in it: what the caller pushes as arguments, what the
C library's memcpy, memmove and memset use below their return address, and what a dynamic linker uses.
Whatever in the code is not understood is an error, never a guess. Exit: 0, 1 if a function needs more than it may, 2 on an error.
"""
import argparse
import re
import subprocess
import sys

RETURN_ADDRESS = 8
PAGE = 4096
RED_ZONE = 128
C_LIBRARY = ("memcpy", "memmove", "memset")
KNOWN_RELOCATIONS = ("R_X86_64_PLT32", "R_X86_64_PC32")
PREFIXES = ("rep", "repz", "repnz", "lock", "notrack", "bnd", "data16", "cs", "ds", "es")
# instructions that move the stack pointer without naming it
IMPLICIT = re.compile(r"^(leave|enter|pushf|popf|iret|syscall|sysret|int\b)")
# instructions that only read an operand that is not their last one
READING = ("mov", "cmp", "test", "add", "sub", "and", "or", "xor", "lea")


class Unknown(Exception):
    pass


class Instruction:
    def __init__(self, at, name, operands, symbol, place):
        self.at, self.name, self.operands = at, name, operands
        self.symbol = symbol  # (name, offset) that a relocation names, or None
        self.place = place  # (function, offset) that a call or jump without a relocation names, or None

    def text(self):
        return self.name + " " + ",".join(self.operands)


# THE LIBRARY'S TEXT -------------------------------------------------------------------------------------------------------------------


def objdump(library, *options):
    done = subprocess.run(["objdump", *options, library], stdout=subprocess.PIPE, stderr=subprocess.PIPE, text=True)
    if done.returncode != 0:
        raise Unknown("objdump: " + done.stderr.strip())
    return done.stdout.split("\n")


def split_symbol(text):
    """`name-0x4` or `name+0x10` as (name, offset)."""
    found = re.match(r"^(.*?)(?:([-+])0x([0-9a-f]+))?$", text)
    offset = int(found.group(3) or "0", 16)
    return found.group(1), -offset if found.group(2) == "-" else offset


def split_operands(text):
    """Operands are separated by commas outside parentheses; what stands behind # or < is the disassembler's remark."""
    return [one.strip() for one in re.split(r",(?![^(]*\))", re.sub(r"\s*[#<].*$", "", text)) if one.strip()]


def read_instruction(line):
    """`  11e:<tab>lea    0x0(%rip),%r8<tab>121: R_X86_64_PC32<tab>.rodata-0x4`: place, instruction, and where there is one its relocation."""
    parts = line.split("\t")
    if len(parts) not in (2, 4):
        raise Unknown("a line of the disassembly: " + line)
    symbol = None
    if len(parts) == 4:
        symbol = split_symbol(parts[3].strip()) if parts[2].split()[-1] in KNOWN_RELOCATIONS else (parts[2], 0)
    name, _, rest = parts[1].partition(" ")
    while name in PREFIXES and rest.strip():
        name, _, rest = rest.strip().partition(" ")
    named = re.search(r"\s<(.+)>\s*$", rest) if symbol is None and name.startswith(("call", "j")) else None
    return Instruction(int(parts[0].strip().rstrip(":"), 16), name, split_operands(rest), symbol, split_symbol(named.group(1)) if named else None)


def functions_of(library):
    functions, code = {}, None
    for line in objdump(library, "-dr", "--no-show-raw-insn", "-w"):
        head = re.match(r"^[0-9a-f]+ <(.+)>:$", line)
        if head:
            if head.group(1) in functions:
                raise Unknown("two functions of one name: " + head.group(1))
            code = functions.setdefault(head.group(1), [])
        elif re.match(r"^\s+[0-9a-f]+:\t", line):
            code.append(read_instruction(line))
    return functions


def exported_of(library):
    """The global functions of the symbol table."""
    found = (re.match(r"^[0-9a-f]{16} (.{7}) \S+\t[0-9a-f]+ +(?:\.hidden )?(\S+)$", line) for line in objdump(library, "-t"))
    return sorted(one.group(2) for one in found if one and one.group(1)[0] == "g" and one.group(1)[6] == "F")


def table_words_of(library):
    """The words of the tables of jumps, as (section, place, function's section, offset): relocations of read-only data against code."""
    words, section = [], None
    for line in objdump(library, "-r"):
        head = re.match(r"^RELOCATION RECORDS FOR \[(.+)\]:$", line)
        if head:
            section = head.group(1)
        found = re.match(r"^([0-9a-f]{16}) R_X86_64_PC32\s+(\S+)$", line)
        if found and section.startswith(".rodata"):
            words.append((section, int(found.group(1), 16), *split_symbol(found.group(2))))
    return words


def targets_of(functions, words):
    """The places in each function that its tables of jumps name. A word is an offset from the start of its table, which a `lea` of the
    function names."""
    named = {}  # functions by the start of a table
    for name, code in functions.items():
        for one in code:
            if one.name == "lea" and one.symbol:
                named.setdefault((one.symbol[0], one.symbol[1] + 4), set()).add(name)
    targets = {name: set() for name in functions}
    for section, at, symbol, offset in words:
        start = max((begin for where, begin in named if where == section and begin <= at), default=None)
        name = re.sub(r"^\.text\.", "", symbol)
        if start is None or named[section, start] != {name}:
            raise Unknown("%s+0x%x: a table of jumps that leads out of its function" % (section, at))
        targets[name].add(offset - (at - start))
    return targets


# ONE FUNCTION -------------------------------------------------------------------------------------------------------------------------


class Flow:
    """The deepest point of a function, and its calls as (depth at the call, callee). Depth 0 is the stack pointer on entry."""

    def __init__(self, name, code, targets):
        self.name, self.code = name, code
        self.index = {one.at: i for i, one in enumerate(code)}
        self.targets = [self.index[at] for at in sorted(targets)]
        self.depth = {}
        self.calls, self.work = [], []
        self.ends_of_probes = set()  # the instructions that set where a probe loop ends: they touch nothing
        self.reach(0, 0)
        while self.work:
            self.step(self.work.pop())
        self.deepest = max([depth + self.below(code[i]) for i, depth in self.depth.items()] + [depth for depth, _ in self.calls])

    def unknown(self, one, why):
        raise Unknown("%s+0x%x: %s: %s" % (self.name, one.at - self.code[0].at, why, one.text()))

    def reach(self, i, depth):
        if i >= len(self.code):
            self.unknown(self.code[-1], "runs past the end of the function")
        if depth < 0:
            self.unknown(self.code[i], "above the caller's stack pointer")
        if i not in self.depth:
            self.depth[i] = depth
            self.work.append(i)
        elif self.depth[i] != depth:
            self.unknown(self.code[i], "reached at depths %d and %d" % (self.depth[i], depth))

    def step(self, i):
        one, depth = self.code[i], self.depth[i]
        if one.name in ("ret", "retq"):
            if depth != 0 or one.operands:
                self.unknown(one, "returns at depth %d" % depth)
        elif one.name in ("ud2", "hlt", "int3"):
            pass
        elif one.name.startswith("call"):
            self.calls.append((depth + RETURN_ADDRESS, self.callee(one)))
            self.reach(i + 1, depth)
        elif one.name.startswith("j") and one.operands and one.operands[0].startswith("*"):
            for target in self.table_targets(i):
                self.reach(target, depth)
        elif one.name.startswith("j") or one.name.startswith("loop"):
            self.jump(i, one, depth)
        else:
            self.reach(i + 1, depth + self.deeper(one))

    def below(self, one):
        """How far below the stack pointer an instruction may read or write. A function that makes no call may use RED_ZONE bytes there:
        they count as a whole where an index, or a register that was set from the stack pointer, leads to a place that is not known."""
        if one.at in self.ends_of_probes or one.operands[-1:] == ["%rsp"]:
            return 0
        places = [int(found, 16) for operand in one.operands for found in re.findall(r"^-0x([0-9a-f]+)\(%rsp\)$", operand)]
        if places:
            if max(places) > RED_ZONE:
                self.unknown(one, "far below the stack pointer")
            return max(places)
        hidden = one.operands[:1] == ["%rsp"] and one.name == "mov" or any(re.match(r"^-0x[0-9a-f]+\(%rsp,", operand) for operand in one.operands)
        return RED_ZONE if hidden and not any(depth for depth, _ in self.calls) else 0  # a call in tail position leaves the bytes below as they are

    def callee(self, one):
        if one.symbol and one.symbol[1] == -4:
            return re.sub(r"^\.text\.", "", one.symbol[0])
        if one.place and one.place[1] == 0 and not one.operands[0].startswith("*"):
            return one.place[0]
        self.unknown(one, "a call that is not direct")

    def jump(self, i, one, depth):
        goal = self.index.get(int(one.operands[0], 16)) if one.place and one.place[0] == self.name else None
        if goal is None:  # a call in tail position: its return address is this function's
            if depth != 0:
                self.unknown(one, "leaves the function at depth %d" % depth)
            self.calls.append((0, self.callee(one)))
        elif self.is_probe(i, goal):
            self.reach(i + 1, self.depth[goal] + self.probed(goal))
            return
        else:
            self.reach(goal, depth)
        if one.name not in ("jmp", "jmpq"):
            self.reach(i + 1, depth)

    def deeper(self, one):
        """How much deeper the stack is behind an instruction that neither calls nor jumps."""
        if one.name in ("push", "pushq"):
            return 8
        if IMPLICIT.match(one.name) or re.match(r"^(push|pop)", one.name) and one.name not in ("pop", "popq"):
            self.unknown(one, "moves the stack pointer")
        bare = [re.match(r"^%(rsp|esp|sp|spl)$", operand) is not None for operand in one.operands]
        if one.name in ("pop", "popq") and not any(bare):
            return -8
        if not any(bare) or one.name in ("cmp", "test", "cmpq", "testq"):
            return 0
        if not bare[-1] and one.name in READING:
            return 0
        amount = re.match(r"^\$(-?)0x([0-9a-f]+)$", one.operands[0])
        led = re.match(r"^(-?)0x([0-9a-f]+)\(%rsp\)$", one.operands[0])
        if one.operands[1:] == ["%rsp"] and (one.name in ("sub", "add") and amount or one.name == "lea" and led):
            found = amount or led
            size = int(found.group(2), 16) * (-1 if found.group(1) else 1)
            return size if one.name == "sub" else -size
        self.unknown(one, "moves the stack pointer")

    # a probe loop: `sub $0x1000,%rsp; movq $0x0,(%rsp); cmp %r11,%rsp; jne`, with the end set in %r11 right before it
    def is_probe(self, i, goal):
        loop = [one.text() for one in self.code[goal:i]]
        return self.code[i].name == "jne" and loop == ["sub $0x1000,%rsp", "movq $0x0,(%rsp)", "cmp %r11,%rsp"]

    def probed(self, goal):
        one, before = self.code[goal - 1].text(), self.code[goal - 2].text()
        led = re.match(r"^lea -0x([0-9a-f]+)\(%rsp\),%r11$", one)
        taken = re.match(r"^sub \$0x([0-9a-f]+),%r11$", one) if before == "mov %rsp,%r11" else None
        found = led or taken
        if goal < 2 or not found or int(found.group(1), 16) % PAGE != 0:
            self.unknown(self.code[goal], "a probe loop with no known end")
        self.ends_of_probes.update(one.at for one in self.code[goal - (2 if taken else 1) : goal])
        return int(found.group(1), 16)

    def table_targets(self, i):
        """Where `movslq (%b,%x,4),%r; add %b,%r; jmp *%r` can go: to the places that the function's tables of jumps have."""
        register = self.code[i].operands[0][1:]
        for one in reversed(self.code[max(0, i - 8) : i]):
            if one.name == "add" and one.operands[1:] == [register] and self.targets:
                return self.targets
            if one.operands[-1:] == [register] or one.name.startswith(("j", "call", "ret")):
                break
        self.unknown(self.code[i], "a jump to a place that is not known")


# THE GRAPH OF CALLS -------------------------------------------------------------------------------------------------------------------


class Bound:
    def __init__(self, library, levels):
        functions = functions_of(library)
        targets = targets_of(functions, table_words_of(library))
        self.flows = {name: Flow(name, code, targets[name]) for name, code in functions.items()}
        self.levels, self.known, self.open = levels, {}, []
        for name in levels:
            if name not in self.flows:
                raise Unknown("--levels: no function " + name)

    def worst(self, name, closed=frozenset()):
        """(bytes, path) at and below `name`, whose return address the caller counts. The functions of `closed` are not entered again."""
        if name in closed:
            return 0, []
        if name not in self.flows:
            if name not in C_LIBRARY:
                raise Unknown("no code of the function " + name)
            return 0, [(name, 0)]
        if (name, closed) not in self.known:
            if (name, closed) in self.open:
                raise Unknown("a cycle of calls with no --levels: " + " -> ".join([one for one, _ in self.open] + [name]))
            self.open.append((name, closed))
            if name in self.levels:
                turn, more = self.turn(name), self.levels[name] - 1
                total, path = self.below(name, closed | {name})
                answer = more * turn + total, [("%s, %d times %d" % (name, more, turn), more * turn)] + path
            else:
                answer = self.below(name, closed)
            self.open.pop()
            self.known[name, closed] = answer
        return self.known[name, closed]

    def below(self, name, closed):
        flow = self.flows[name]
        best, own, path = flow.deepest, flow.deepest, []
        for depth, target in flow.calls:
            cost, rest = self.worst(target, closed)
            if depth + cost > best:
                best, own, path = depth + cost, depth, rest
        return best, [(name, own)] + path

    def turn(self, goal):
        """The most that stands between one activation of `goal` and the next one inside it."""

        def way(name, passed):
            best = None
            for depth, target in self.flows[name].calls:
                if target == goal:
                    best = max(best or 0, depth)
                elif self.leads_to(target, goal, set()):
                    if target in passed:
                        raise Unknown("a cycle of calls beside --levels: " + " -> ".join(passed + (target,)))
                    best = max(best or 0, depth + way(target, passed + (target,)))
            return best

        return way(goal, (goal,)) or 0

    def leads_to(self, name, goal, seen):
        if name == goal:
            return True
        if name in seen or name not in self.flows:
            return False
        seen.add(name)
        return any(self.leads_to(target, goal, seen) for _, target in self.flows[name].calls)


# THE REPORT ---------------------------------------------------------------------------------------------------------------------------


def figures_of(page):
    rows = re.findall(r"^\| `(\w+)` \| ([0-9,]+) \|", open(page, encoding="utf-8").read(), re.MULTILINE)
    if len(rows) != len({name for name, _ in rows}):
        raise Unknown(page + ": two rows of one function")
    return {name: int(figure.replace(",", "")) for name, figure in rows}


def check_cited(page, figures):
    text = re.sub(r"\s*\n[ *]*", " ", open(page, encoding="utf-8").read())  # a figure may stand on the next line of a comment
    for name, figure in figures.items():
        said = "%s %s" % (name.replace("cerambiu_", ""), format(figure, ","))
        if not re.search(r"\b%s(?![0-9]|,[0-9])" % re.escape(said), text):
            raise Unknown("%s does not say '%s'" % (page, said))


def limits_of(groups):
    """`--most BYTES FUNCTION ..` as bytes by function."""
    limits = {}
    for figure, *names in groups:
        for name in names:
            if name in limits:
                raise Unknown("--most: two limits of " + name)
            limits[name] = int(figure)
    return limits


def check_names(where, named, exported):
    """Each exported function is named, and no other."""
    for name in sorted(set(exported) ^ set(named)):
        raise Unknown("%s: %s" % (where, ("nothing of " if name in exported else "no exported function ") + name))


def report(options):
    levels = {name: int(n) for name, n in (one.rsplit("=", 1) for one in options.levels)}
    bound = Bound(options.library, levels)
    exported, limits, figures = exported_of(options.library), limits_of(options.most), {}
    if not exported:
        raise Unknown("no exported function")
    if limits:
        check_names("--most", limits, exported)
    if options.page:
        figures = figures_of(options.page)
        check_names(options.page, figures, exported)
        for page in options.cited:
            check_cited(page, figures)
    over = 0
    for name in exported:
        cost, path = bound.worst(name)
        total = RETURN_ADDRESS + cost
        allowed = min([most[name] for most in (figures, limits) if most], default=total)
        over += total > allowed
        print("%-32s %8d bytes of stack at most%s" % (name, total, ", OVER %d" % allowed if total > allowed else ""))
        for step, own in path if options.paths else []:
            print("    %-60s %8d" % (step, own))
    return 1 if over else 0


def main():
    options = argparse.ArgumentParser(description=__doc__, formatter_class=argparse.RawDescriptionHelpFormatter)
    options.add_argument("library")
    options.add_argument("--levels", action="append", default=[])
    options.add_argument("--page")
    options.add_argument("--cited", action="append", default=[])
    options.add_argument("--most", action="append", nargs="+", default=[])
    options.add_argument("--paths", action="store_true")
    try:
        return report(options.parse_args())
    except Unknown as problem:
        print("stack_bound: %s" % problem, file=sys.stderr)
        return 2


if __name__ == "__main__":
    sys.exit(main())
