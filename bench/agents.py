#!/usr/bin/env python3
"""Times one call of an agent on theory files of growing size: the next consequence over a board of connectives at rest,
and the matches of a theorem.

Usage: bench/agents.py [PROGRAM [OLDER]]

PROGRAM is crates/grind_agent_bench/out/grind_agent_bench, which `rt run` in its folder builds. For each family and size
the table gives what was answered, the seconds that the call took in the fastest of some runs, and the growth against
half the size. With an OLDER program, whose runs alternate with those of the other, it gives the seconds of that one too.
The files are made in a temporary folder.
"""

import os
import subprocess
import sys
import tempfile

ROUNDS = 15
DEPTH = 125
TABLE = 50_000


def board(size):
    """So many disjunctions, each of two constants; all is known."""
    count = size // 2 + 2
    pairs = [(i, i + step) for i in range(count) for step in (1, 2) if i + step < count]
    hyps = " ; ".join(f"c{i} \\/ c{j}" for i, j in pairs[:size])
    names = " ".join(f"c{i}" for i in range(count))
    return f"goal t ({names}: Prop): {hyps} |- c0.\n", "rest"


def theory(patterns, variables, functions, names, hyps):
    """A theorem with these patterns, and a goal with these hypotheses."""
    lines = ["sort S."]
    lines += [f"fun {name}({', '.join(['S'] * count)}): S." for name, count in functions]
    lines.append(f"theorem l ({variables}: S) [pattern {patterns}]: x = x.")
    lines.append(f"goal t ({' '.join(names)}: S): {' ; '.join(hyps)} |- c0 = c0.")
    return "\n".join(lines) + "\n"


def chain(size):
    """So many applications of `f`, nested, over some constants."""
    names = [f"c{i}" for i in range(size // DEPTH)]
    hyps = ["f(" * DEPTH + name + ")" * DEPTH + f" = {name}" for name in names]
    return theory("f(x)", "x", [("f", 1)], names, hyps), str(size)


def shared(size):
    """`f` and `h` of each of so many constants."""
    names = [f"c{i}" for i in range(size)]
    hyps = [f"f({name}) = h({name})" for name in names]
    return theory("f(x), h(x)", "x", [("f", 1), ("h", 1)], names, hyps), str(size)


def second(size):
    """`f` of each of so many constants, and `g` of another constant and it."""
    names = [f"c{i}" for i in range(size)]
    hyps = [f"f({a}) = g({b}, {a})" for a, b in zip(names, names[1:] + names[:1])]
    return theory("f(x), g(y, x)", "x y", [("f", 1), ("g", 2)], names, hyps), str(size)


def inner(size):
    """`f` of `h` of each of so many constants, and `h` of it."""
    names = [f"c{i}" for i in range(size)]
    hyps = [f"f(h({name})) = {name}" for name in names]
    return theory("f(h(x)), h(x)", "x", [("f", 1), ("h", 1)], names, hyps), str(size)


def constant(size):
    """`g` and `h` of one constant and each of so many others."""
    names = ["a"] + [f"c{i}" for i in range(size)]
    hyps = [f"g(a, {name}) = h(a, {name})" for name in names[1:]]
    return theory("g(x, y), h(x, y)", "x y", [("g", 2), ("h", 2)], names, hyps), str(size)


def apart(size):
    """`f` of each of so many constants, `g` of as many others, and `h` of each two of the same number."""
    names = [f"{letter}{i}" for letter in "cd" for i in range(size)]
    hyps = [f"f(c{i}) = h(c{i}, d{i})" for i in range(size)] + [f"g(d{i}) = d{i}" for i in range(size)]
    return theory("f(x), g(y), h(x, y)", "x y", [("f", 1), ("g", 1), ("h", 2)], names, hyps), str(size)


def many(size):
    """So many functions of one constant, and one other function, nested over some constants."""
    functions = [f"f{i}" for i in range(size)]
    names = ["a"] + [f"c{i}" for i in range(TABLE // DEPTH)]
    hyps = ["k(" * DEPTH + name + ")" * DEPTH + f" = {name}" for name in names[1:]] + [f"{it}(a) = a" for it in functions]
    patterns = ", ".join(f"{it}(x)" for it in functions)
    return theory(patterns, "x", [(it, 1) for it in ["k"] + functions], names, hyps), "1"


def members(size):
    """Constants in pairs that were joined: `f` of the one and `h` of the other."""
    names = [f"c{i}" for i in range(2 * size)]
    hyps = [f"f(c{i}) = f(c{i})" for i in range(0, 2 * size, 2)]
    hyps += [f"h(c{i + 1}) = h(c{i + 1})" for i in range(0, 2 * size, 2)]
    hyps += [f"c{i} = c{i + 1}" for i in range(0, 2 * size, 2)]
    return theory("f(x), h(x)", "x", [("f", 1), ("h", 1)], names, hyps), str(size)


FAMILIES = [
    ("`truth`: a board at rest", "truth", board, [1_250 << k for k in range(6)]),
    ("`chain` under `f(x)`", "match", chain, [500 << k for k in range(6)]),
    ("`shared`: `f(x)`, `h(x)`", "match", shared, [500 << k for k in range(5)]),
    ("`second`: `f(x)`, `g(y, x)`", "match", second, [500 << k for k in range(5)]),
    ("`inner`: `f(h(x))`, `h(x)`", "match", inner, [500 << k for k in range(5)]),
    ("`members`: `f(x)`, `h(x)`, joined", "joined", members, [500 << k for k in range(4)]),
    ("`constant`: `g(x, y)`, `h(x, y)`, one `x`", "match", constant, [500 << k for k in range(4)]),
    ("`apart`: `f(x)`, `g(y)`, `h(x, y)`", "match", apart, [125 << k for k in range(4)]),
    ("`many`: `f0(x)`, `f1(x)`, .. over 50,000 nodes", "match", many, [4 << k for k in range(5)]),
]


def once(program, word, path, want):
    """The seconds of one call."""
    run = subprocess.run([program, word, path], check=True, capture_output=True, text=True)
    if run.stdout.strip() != want:
        sys.exit(f"{word}: {run.stdout.strip()} in place of {want}")
    return int(run.stderr.split()[-1]) / 1_000_000


def row(programs, name, word, make, size, before):
    """Prints one row of the table, and returns the seconds of each program."""
    with tempfile.TemporaryDirectory() as folder:
        path = os.path.join(folder, "t.gr")
        text, want = make(size)
        with open(path, "w", encoding="ascii") as file:
            file.write(text)
        runs = [[once(program, word, path, want) for program in programs] for _ in range(ROUNDS)]
    taken = [min(times) for times in zip(*runs)]
    growth = f"{taken[0] / before[0]:.2f}" if before else ""
    older = "".join(f" | {seconds:.6f}" for seconds in taken[1:])
    answer = f"{int(want):,}" if want.isdigit() else want
    print(f"| {name} | {size:,} | {answer} | {taken[0]:.6f} | {growth}{older} |", flush=True)
    return taken


def main():
    here = os.path.dirname(os.path.abspath(__file__))
    default = os.path.join(here, "..", "crates", "grind_agent_bench", "out", "grind_agent_bench")
    programs = [os.path.abspath(it) for it in sys.argv[1:3] or [default]]
    for program in programs:
        if not os.access(program, os.X_OK):
            sys.exit(f"{program}: not built yet; `rt run` in its folder builds it")
    older = " | Before" * (len(programs) - 1)
    print(f"| Family | Size | Answer | Seconds | Growth{older} |")
    print("|---" * (4 + len(programs)) + "|")
    for name, word, make, sizes in FAMILIES:
        before = None
        for size in sizes:
            before = row(programs, name, word, make, size, before)


if __name__ == "__main__":
    main()
