#!/usr/bin/env python3
"""Times the ring solver on systems of equations of growing size.

Usage: bench/ring.py [PROGRAM [SECONDS]]

PROGRAM is crates/grind_ring_rows/out/grind_ring_rows, which `rt run` in its folder builds. For each family and size the table
gives how many normal forms joined the basis, of at most 500, how many terms were found equal, the last answer, the seconds of
the whole run in the fastest of some, and the growth against the size before. A run that takes longer than SECONDS, or 60, is
ended, and larger sizes of its family are left out. The files are made in a temporary folder.
"""

import os
import subprocess
import sys
import tempfile
import time

ROUNDS = 3
LIMIT = 500


def goal(names, equations):
    """A theory file with a goal of these equations."""
    return f"goal t ({' '.join(names)}: Int): {' ; '.join(equations)} |- false.\n"


def katsura(size):
    """The magnetism problem of Katsura in so many variables and one."""
    names = [f"x{i}" for i in range(size + 1)]
    equations = []
    for m in range(size):
        pairs = [(abs(m - i), abs(i)) for i in range(-size, size + 1) if abs(m - i) <= size]
        equations.append(" + ".join(f"x{a}*x{b}" for a, b in pairs) + f" = x{m}")
    equations.append("x0 + " + " + ".join(f"2*x{i}" for i in range(1, size + 1)) + " = 1")
    return goal(names, equations)


def cyclic(size):
    """The cyclic roots problem in so many variables."""
    names = [f"x{i}" for i in range(size)]
    equations = []
    for m in range(1, size):
        products = ["*".join(names[(i + k) % size] for k in range(m)) for i in range(size)]
        equations.append(" + ".join(products) + " = 0")
    equations.append("*".join(names) + " = 1")
    return goal(names, equations)


def inverses(size):
    """So many numbers, each an inverse of one other."""
    names = [f"x{i}" for i in range(size)]
    return goal(names + ["y"], [f"{name}*y = 1" for name in names])


def squares(size):
    """So many squares of sums of two neighbours."""
    names = [f"x{i}" for i in range(size + 1)]
    sums = [f"({a} + {b})*({a} + {b}) = z{i}" for i, (a, b) in enumerate(zip(names, names[1:]))]
    return goal(names + [f"z{i}" for i in range(size)], sums)


FAMILIES = [
    ("`katsura`", katsura, [2, 3, 4]),
    ("`cyclic`", cyclic, [3, 4]),
    ("`inverses`: `x_i * y = 1`", inverses, [4, 8, 16, 32]),
    ("`squares`: `(x_i + x_(i+1))^2 = z_i`", squares, [4, 8, 16, 32]),
]


def once(program, folder, longest):
    """The seconds of one run and what it wrote, or None where it took too long."""
    start = time.monotonic()
    try:
        run = subprocess.run([program], cwd=folder, check=True, capture_output=True, text=True, timeout=longest)
    except subprocess.TimeoutExpired:
        return None
    return time.monotonic() - start, run.stdout.splitlines()


def row(program, name, make, size, before, longest):
    """Prints one row of the table, and returns the seconds, or None where it took too long."""
    with tempfile.TemporaryDirectory() as folder:
        with open(os.path.join(folder, "t.gr"), "w", encoding="ascii") as file:
            file.write(make(size))
        with open(os.path.join(folder, "cases"), "w", encoding="ascii") as file:
            file.write(f"t.gr {LIMIT} joined\n")
        runs = []
        for _ in range(ROUNDS):
            run = once(program, folder, longest)
            if run is None:
                print(f"| {name} | {size} | | | not within {longest} s | | |", flush=True)
                return None
            runs.append(run)
    seconds, lines = min(runs)
    added = sum(line.startswith("added") for line in lines)
    equal = sum(line.startswith("equal") for line in lines)
    growth = f"{seconds / before:.2f}" if before else ""
    last = [line for line in lines if not line.startswith("basis")][-1]
    print(f"| {name} | {size} | {added} | {equal} | {last} | {seconds:.3f} | {growth} |", flush=True)
    return seconds


def main():
    here = os.path.dirname(os.path.abspath(__file__))
    default = os.path.join(here, "..", "crates", "grind_ring_rows", "out", "grind_ring_rows")
    program = os.path.abspath(sys.argv[1] if len(sys.argv) > 1 else default)
    longest = int(sys.argv[2]) if len(sys.argv) > 2 else 60
    if not os.access(program, os.X_OK):
        sys.exit(f"{program}: not built yet; `rt run` in its folder builds it")
    print("| Family | Size | Joined | Equal | Last answer | Seconds | Growth |")
    print("|---|---|---|---|---|---|---|")
    for name, make, sizes in FAMILIES:
        before = None
        for size in sizes:
            before = row(program, name, make, size, before, longest)
            if before is None:
                break


if __name__ == "__main__":
    main()
