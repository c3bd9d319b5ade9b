#!/usr/bin/env python3
"""Tests of stack_bound.py: libraries of C with the frames that the compiler tells (-fstack-usage), of assembly with frames that are counted by
hand, and what must be refused. Prints the number of tests that passed, or fails at the first that did not."""
import os
import re
import subprocess
import sys
import tempfile

TOOL = os.path.join(os.path.dirname(os.path.abspath(__file__)), "stack_bound.py")
passed = 0


def library(folder, text, suffix, *options):
    source, built, archive = (os.path.join(folder, "one" + end) for end in (suffix, ".o", ".a"))
    with open(source, "w", encoding="utf-8") as file:
        file.write(text)
    subprocess.run(["cc", "-c", "-ffunction-sections", *options, source, "-o", built], check=True)
    if os.path.exists(archive):
        os.remove(archive)
    subprocess.run(["ar", "rcs", archive, built], check=True)
    return archive


def run(archive, *options):
    done = subprocess.run([sys.executable, TOOL, archive, *options], stdout=subprocess.PIPE, stderr=subprocess.PIPE, text=True)
    bounds = {name: int(n) for name, n in re.findall(r"^(\w+) +(\d+) bytes", done.stdout, re.MULTILINE)}
    return done.returncode, bounds, done.stdout + done.stderr


def expect(what, is_true, shown=""):
    global passed
    if not is_true:
        sys.exit("stack_bound_test: FAILED: %s\n%s" % (what, shown))
    passed += 1


def refused(folder, what, why, text, suffix=".s", options=()):
    status, _, shown = run(library(folder, text, suffix, "-O1"), *options)
    expect(what + " is refused", status == 2 and why in shown, shown)


# C: THE FRAMES THAT THE COMPILER TELLS ------------------------------------------------------------------------------------------------

# what the compiler tells does not count bytes below the stack pointer of a function that calls none
TOLD = ("-fstack-usage", "-mno-red-zone", "-fno-stack-protector", "-fno-optimize-sibling-calls", "-fno-inline")

C_CALLS = r"""
#define APART __attribute__((noinline, noclone))
APART static int leaf(volatile char *at) { volatile char here[100]; here[0] = *at; return here[0]; }
APART static int low(volatile char *at) { volatile char here[900]; here[1] = *at; return leaf(here) + here[1]; }
APART static int high(volatile char *at) { volatile char here[3000]; here[2] = *at; return leaf(here) + here[2]; }
int both(volatile char *at) { volatile char here[40]; here[3] = *at; int a = low(here); int b = high(here); return a + b + here[3]; }
int one(volatile char *at) { volatile char here[40]; here[3] = *at; return low(here) + here[3]; }
int choose(int way, volatile char *at)
{
    volatile char here[200];
    here[0] = *at;
    switch (way) {
    case 0: return low(here) + 1;
    case 1: return leaf(here) * 3 + here[1];
    case 2: return high(here) + 2;
    case 3: return here[5] * here[6];
    case 4: return leaf(here) + 7;
    case 5: return here[7] + 9;
    default: return here[8];
    }
}
"""

C_RECURSION = r"""
#define APART __attribute__((noinline, noclone))
APART static int leaf(volatile char *at) { volatile char here[500]; here[0] = *at; return here[0]; }
APART int down(int n, volatile char *at)
{
    volatile char here[200];
    here[0] = *at;
    return (n == 0 ? leaf(here) : down(n - 1, here)) + here[0];
}
int start(volatile char *at) { volatile char here[60]; here[0] = *at; return down(here[0], here) + here[0]; }
"""


def frames(folder):
    """Bytes of each function's frame with its return address, from the compiler."""
    text = open(os.path.join(folder, "one.su"), encoding="utf-8").read()
    rows = re.findall(r"^\S+:(\w+)\t(\d+)\t(\w+)", text, re.MULTILINE)
    expect("the compiler tells all frames", rows and all(kind == "static" for _, _, kind in rows), text)
    return {name: int(size) for name, size, _ in rows}


def c_libraries(folder):
    for level in ("-O1", "-O2"):
        archive = library(folder, C_CALLS, ".c", level, *TOLD)
        size = frames(folder)
        status, bounds, shown = run(archive)
        expect("bounds of calls " + level, status == 0 and sorted(bounds) == ["both", "choose", "one"], shown)
        expect("the deeper of two calls", bounds["both"] == size["both"] + size["high"] + size["leaf"], shown)
        expect("one call", bounds["one"] == size["one"] + size["low"] + size["leaf"], shown)
        expect("a table of jumps", bounds["choose"] == size["choose"] + size["high"] + size["leaf"], shown)
        expect_limits(archive, bounds)
        page = os.path.join(folder, "page.md")
        rows = ["| `%s` | {:,} | words |\n".format(bounds[name]) % name for name in bounds]
        for what, kept, status in (("all rows", rows, 0), ("a row that is missing", rows[1:], 2), ("a row of no function", rows + ["| `other` | 8 |\n"], 2)):
            open(page, "w", encoding="utf-8").write("| call | bytes | |\n|---|---|---|\n" + "".join(kept))
            expect("a page with " + what, run(archive, "--page", page)[0] == status)
        largest = str(max(bounds.values()))
        open(page, "w", encoding="utf-8").write("".join(rows))
        expect("a page and limits that are kept", run(archive, "--page", page, "--most", largest, *bounds)[0] == 0)
        expect("a page that allows more than the limits", run(archive, "--page", page, "--most", str(max(bounds.values()) - 1), *bounds)[0] == 1)
        expect_cited(archive, folder, rows, bounds)
        open(page, "w", encoding="utf-8").write("".join(rows).replace("| {:,} |".format(bounds["both"]), "| {:,} |".format(bounds["both"] - 1)))
        expect("a page with a figure that is exceeded", run(archive, "--page", page)[0] == 1)
        expect("the same, within the limits", run(archive, "--page", page, "--most", largest, *bounds)[0] == 1)

        archive = library(folder, C_RECURSION, ".c", level, *TOLD)
        size = frames(folder)
        status, _, shown = run(archive)
        expect("a recursion without levels is refused", status == 2 and "a cycle of calls with no --levels" in shown, shown)
        for levels in (1, 2, 12):
            status, bounds, shown = run(archive, "--levels", "down=%d" % levels)
            expect("a recursion of %d levels" % levels, status == 0 and bounds["start"] == size["start"] + levels * size["down"] + size["leaf"], shown)
        expect("levels of no function are refused", run(archive, "--levels", "up=3")[0] == 2)


def expect_limits(archive, bounds):
    two, one = str(max(bounds["both"], bounds["choose"])), str(bounds["one"])
    expect("limits that are kept", run(archive, "--most", two, "both", "choose", "--most", one, "one")[0] == 0)
    status, _, shown = run(archive, "--most", two, "both", "choose", "--most", str(bounds["one"] - 1), "one")
    expect("a limit that is exceeded by a byte", status == 1 and shown.count("OVER") == 1, shown)
    expect("a limit of the wrong function", run(archive, "--most", one, "both", "choose", "--most", two, "one")[0] == 1)
    for what, names in (("a function without a limit", ["both", "one"]), ("a limit of no function", [*bounds, "other"]), ("two limits of one function", [*bounds, "one"])):
        expect(what + " is refused", run(archive, "--most", two, *names)[0] == 2)


def expect_cited(archive, folder, rows, bounds):
    page, cited = os.path.join(folder, "page.md"), os.path.join(folder, "cited.h")
    open(page, "w", encoding="utf-8").write("".join(rows))
    words = ", ".join("{} {:,}".format(name, bounds[name]) for name in bounds)
    texts = (("all figures", words + ".", 0), ("a figure too few", words.rsplit(" ", 1)[0], 2))
    swapped = words.replace("both", "other").replace("one", "both").replace("other", "one")
    texts += (("figures over two lines of a comment", words.replace(" ", "\n *  "), 0), ("two figures exchanged", swapped, 2))
    texts += (("digits before", words.replace(" ", " 1"), 2), ("digits behind", words.replace(", ", "1, ") + "1", 2))
    for what, text, status in texts:
        open(cited, "w", encoding="utf-8").write(text)
        expect("another page with " + what, run(archive, "--page", page, "--cited", cited)[0] == status)


# ASSEMBLY: FRAMES COUNTED BY HAND -----------------------------------------------------------------------------------------------------


def function(name, body, is_global=True):
    head = ".section .text.%s,\"ax\",@progbits\n%s.type %s,@function\n%s:\n" % (name, ".globl %s\n" % name if is_global else "", name, name)
    return head + "".join("    %s\n" % line if not line.endswith(":") else line + "\n" for line in body.split("; ")) + ".size %s, .-%s\n" % (name, name)


def bound_of(folder, text, name, bytes_, *options):
    status, bounds, shown = run(library(folder, text, ".s"), *options)
    expect("%s needs %d" % (name, bytes_), status == 0 and bounds[name] == bytes_, shown)


PROBED = "push %rbx; lea -0x5000(%rsp), %r11; .Lp:; sub $0x1000, %rsp; movq $0, (%rsp); cmp %r11, %rsp; jne .Lp; sub $0x10, %rsp; add $0x5010, %rsp; pop %rbx; ret"


def assembly(folder):
    bound_of(folder, function("plain", "ret"), "plain", 8)
    bound_of(folder, function("pushes", "push %rbx; push %rbp; sub $0x20, %rsp; lea 0x20(%rsp), %rsp; pop %rbp; pop %rbx; ret"), "pushes", 8 + 16 + 32)
    bound_of(folder, function("below", "push %rbx; mov %rax, -0x48(%rsp); pop %rbx; ret"), "below", 8 + 8 + 0x48)
    bound_of(folder, function("indexed", "push %rbx; mov %rax, -0x4008(%rsp,%rdi,4); pop %rbx; ret"), "indexed", 8 + 8 + 128)
    bound_of(folder, function("hidden", "push %rbp; mov %rsp, %rbp; mov %rax, -0x10(%rbp); pop %rbp; ret"), "hidden", 8 + 8 + 128)
    bound_of(folder, function("probed", PROBED), "probed", 8 + 8 + 0x5000 + 0x10)
    bound_of(folder, function("led", "lea -0x60(%rsp), %r11; mov %rax, (%r11); ret"), "led", 8 + 0x60)
    bound_of(folder, function("g", "ret", False) + function("hidden_tail", "mov %rsp, %rbx; mov %rax, -0x40(%rbx); jmp g"), "hidden_tail", 8 + 128)
    bound_of(folder, function("copies", "sub $0x18, %rsp; call memcpy@PLT; add $0x18, %rsp; ret"), "copies", 8 + 24 + 8)
    inner = function("inner", "sub $0x100, %rsp; add $0x100, %rsp; ret", False)
    bound_of(folder, inner + function("tail", "push %rbx; pop %rbx; jmp inner"), "tail", 8 + 0x100)
    bound_of(folder, inner + function("pushed", "push %rax; push %rax; call inner; add $0x10, %rsp; ret"), "pushed", 8 + 16 + 8 + 0x100)
    # two functions that call each other: 3 activations of `even`, each but the last with `odd` above the next
    even = function("even", "sub $0x28, %rsp; call odd; add $0x28, %rsp; ret")
    odd = function("odd", "sub $0x48, %rsp; call even; sub $0x80, %rsp; add $0x80, %rsp; add $0x48, %rsp; ret", False)
    turn = 8 + 0x28 + 8 + 0x48
    bound_of(folder, even + odd, "even", 2 * turn + 8 + 0x28 + 8 + 0x48 + 0x80, "--levels", "even=3")


def refusals(folder):
    refused(folder, "a call through a register", "not direct", function("f", "sub $0x8, %rsp; call *%rax; add $0x8, %rsp; ret"))
    refused(folder, "a call through memory", "not direct", function("f", "sub $0x8, %rsp; call *0x8(%rdi); add $0x8, %rsp; ret"))
    refused(folder, "a jump through a register", "a place that is not known", function("f", "jmp *%rdi"))
    refused(folder, "a function pointer of C", "not direct", "int f(int (*g)(int)) { return g(1) + 1; }", ".c")
    refused(folder, "an array of variable length", "moves the stack pointer", "int g(char *); int f(int n) { char here[n]; return g(here); }", ".c")
    refused(folder, "a function with no code", "no code of the function", "int g(int); int f(int n) { return g(n) + 1; }", ".c")
    refused(folder, "a frame that is not undone", "returns at depth 8", function("f", "push %rbx; ret"))
    refused(folder, "two depths at one place", "reached at depths", function("f", "test %eax, %eax; je .La; push %rbx; .La:; ret"))
    refused(folder, "a place far below the stack pointer", "far below", function("f", "mov %rax, -0x88(%rsp); ret"))
    refused(folder, "leave", "moves the stack pointer", function("f", "push %rbp; mov %rsp, %rbp; leave; ret"))
    refused(folder, "an exchange with the stack pointer", "moves the stack pointer", function("f", "xchg %rsp, %rax; ret"))
    refused(folder, "a function that runs on", "past the end", function("f", "nop"))
    refused(folder, "a tail call inside a frame", "leaves the function at depth", function("g", "ret") + function("f", "push %rbx; jmp g"))
    refused(folder, "a probe loop with no known end", "probe loop", function("f", PROBED.replace("0x5000(%rsp)", "0x5008(%rsp)")))
    cycle = function("a", "sub $0x8, %rsp; call b; add $0x8, %rsp; ret") + function("b", "sub $0x8, %rsp; call a; call b; add $0x8, %rsp; ret", False)
    refused(folder, "a cycle beside the one with levels", "a cycle of calls", cycle, ".s", ("--levels", "a=3"))


def main():
    with tempfile.TemporaryDirectory() as folder:
        c_libraries(folder)
        assembly(folder)
        refusals(folder)
    print("stack_bound_test: %d passed" % passed)


if __name__ == "__main__":
    main()
