#!/usr/bin/env python3
"""Times the proved program on theory files of growing size.

Usage: bench/solve.py [PROGRAM]

PROGRAM is out/grind_main, which `./prove` builds. For each family of files the
table gives the bytes of the file, the seconds of the fastest of three runs, the growth against the
file of half the size, and the peak memory as a multiple of the file.
"""

import os
import sys
import tempfile
import time

LIMIT = 4_194_304
ROUNDS = 3


def filled(size, first, line_of, last=""):
    """A file of at most `size` bytes: the first line, then lines by their numbers, then the last."""
    parts = [first]
    length = len(first) + len(last)
    while True:
        line = line_of(len(parts) - 1)
        if length + len(line) > size:
            return "".join(parts) + last
        parts.append(line)
        length += len(line)


def many_goals(size):
    """Small goals, every second of them closed."""
    sides = ["f(a)", "a"]
    return filled(size, "sort S. fun f(S): S.\n", lambda i: f"goal g{i} (a: S): |- f(a) = {sides[i % 2]}.\n")


def many_functions(size):
    """Declarations of functions, and one goal at the end."""
    return filled(size, "sort S.\n", lambda i: f"fun f{i}(S): S.\n", "goal g (a: S): |- a = a.\n")


def one_comment(size):
    """One comment that fills the file."""
    text = "sort S. goal g (a: S): |- a = a.\n--"
    return text + "x" * (size - len(text))


def deep_terms(size):
    """Goals whose terms are nested 190 deep."""
    term = "f(" * 190 + "a" + ")" * 190
    return filled(size, "sort S. fun f(S): S.\n", lambda i: f"goal g{i} (a: S): |- {term} = {term}.\n")


def wide_goals(size):
    """Goals of some 20,000 different nodes each."""
    names = [f"a{i}" for i in range(10_000)]
    row = [f"f({name})" for name in names]
    while len(row) > 1:
        row = [f"p({a}, {b})" for a, b in zip(row[::2], row[1::2])] + row[len(row) & ~1:]
    binders = " ".join(names)
    first = "sort S. fun f(S): S. fun p(S, S): S.\n"
    return filled(size, first, lambda i: f"goal g{i} ({binders}: S): |- {row[0]} = {row[0]}.\n")


def one_goal(size):
    """One goal of some 65,000 different nodes at 4 MiB, which is one of its hypotheses."""
    names = [f"a_constant_with_a_rather_long_name_{i:05}" for i in range(size * 32_000 // LIMIT)]
    row = names
    while len(row) > 1:
        row = [f"p({a},{b})" for a, b in zip(row[::2], row[1::2])] + row[len(row) & ~1:]
    formula = f"{row[0]} = {names[0]}"
    return f"sort S. fun p(S, S): S.\ngoal g ({' '.join(names)}: S): {formula} |- {formula}.\n"


def one_name(size):
    """One name of 255 bytes, in as many hypotheses as there is room for."""
    name = "n" * 255
    formula = f"{name} = {name}"
    count = (size - 900) // (len(formula) + 3)
    return f"sort S.\ngoal g ({name}: S): {' ; '.join([formula] * count)} |- {formula}.\n"


def many_theorems(size):
    """Theorems with a variable and a pattern, and one goal at the end."""
    first = "sort S. fun f(S): S.\n"
    return filled(size, first, lambda i: f"theorem t{i} (x: S) [=]: f(f(x)) = x.\n", "goal g (a: S): |- a = a.\n")


FAMILIES = [
    many_goals,
    many_functions,
    many_theorems,
    one_goal,
    one_name,
    one_comment,
    deep_terms,
    wide_goals,
]


def run(program, path):
    """Seconds and peak memory in bytes of one run; its output goes nowhere."""
    start = time.perf_counter()
    child = os.fork()
    if child == 0:
        nowhere = os.open(os.devnull, os.O_WRONLY)
        os.dup2(nowhere, 1)
        os.execv(program, [program, "solve", path])
    _, status, usage = os.wait4(child, 0)
    seconds = time.perf_counter() - start
    code = os.waitstatus_to_exitcode(status)
    if code not in (0, 1):
        sys.exit(f"{path}: status {code}")
    return seconds, usage.ru_maxrss * 1024


def main():
    top = os.path.dirname(os.path.dirname(os.path.abspath(__file__)))
    built = os.path.join(top, "out", "grind_main")
    program = os.path.abspath(sys.argv[1]) if len(sys.argv) > 1 else built
    if not os.access(program, os.X_OK):
        sys.exit(f"{program}: not built yet; ./prove builds it")
    print("| family | bytes | seconds | growth | memory / file |")
    print("|---|---|---|---|---|")
    with tempfile.TemporaryDirectory() as folder:
        for family in FAMILIES:
            before = None
            for size in (LIMIT // 4, LIMIT // 2, LIMIT):
                text = family(size)
                path = os.path.join(folder, f"{family.__name__}.gr")
                with open(path, "w", encoding="ascii") as file:
                    file.write(text)
                runs = [run(program, path) for _ in range(ROUNDS)]
                seconds = min(seconds for seconds, _ in runs)
                memory = max(memory for _, memory in runs)
                growth = "" if before is None else f"{seconds / before:.2f}"
                print(f"| {family.__name__} | {len(text)} | {seconds:.3f} | {growth} | {memory / len(text):.1f} |")
                before = seconds


if __name__ == "__main__":
    main()
