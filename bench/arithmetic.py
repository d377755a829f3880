#!/usr/bin/env python3
"""Times readings of terms as linear forms and polynomials, and reductions of polynomials.

Usage: bench/arithmetic.py [PROGRAM]

PROGRAM is crates/grind_bench/out/grind_bench, which `rt run` in its folder builds. For each family and size the table gives
the parts or terms that were made and the seconds of the fastest of five runs.
"""

import os
import subprocess
import sys
import tempfile

ROUNDS = 5


def balanced(items):
    """The sum of the items, as a tree of small depth."""
    if len(items) == 1:
        return items[0]
    half = len(items) // 2
    return f"({balanced(items[:half])} + {balanced(items[half:])})"


def theory(names, hyps, left):
    """A file with one goal, whose conclusion has this left side."""
    return f"goal t ({' '.join(names)}: Int): {' ; '.join(hyps)} |- {left} = 0.\n"


def sums(size):
    """A sum of so many atoms, each with a coefficient."""
    names = [f"x{i}" for i in range(size)]
    return theory(names, [], balanced([f"{i % 7 + 1}*{name}" for i, name in enumerate(names)]))


def powers(size):
    """A sum of four atoms to this power."""
    names = ["w", "x", "y", "z"]
    return theory(names, [], " * ".join(["(w + 2*x - 3*y + z)"] * size))


def products(size):
    """The product of two sums of so many atoms, none of which is in both."""
    one = [f"x{i}" for i in range(size)]
    other = [f"y{i}" for i in range(size)]
    return theory(one + other, [], f"{balanced(one)} * {balanced(other)}")


def reductions(size):
    """The square of a sum of so many atoms, with its 50 rules for squares."""
    names = [f"x{i}" for i in range(51)]
    rules = [f"x{i}*x{i} = x{i + 1} + {i}" for i in range(50)]
    some = balanced(names[:size])
    return theory(names, rules, f"{some} * {some}")


def pairs(size):
    """So many hypotheses about sums of four atoms that share their parts, so that one table has all sides."""
    names = [f"x{i}" for i in range(200)]
    side = lambda i: f"({names[i % 200]} + {i % 7 + 1}*{names[i // 200 % 200]} + {i})"
    return theory(names, [f"{side(i)} = {side(i + 1)}" for i in range(size)], names[0])


FAMILIES = [
    ("linear", "`sums` of atoms", sums, [10, 100, 1_000, 10_000]),
    ("poly", "`powers` of a sum of four atoms", powers, [1, 2, 4, 8, 16]),
    ("poly", "`products` of two sums of atoms", products, [50, 100, 200, 400]),
    ("normal", "`reductions` by 50 elements", reductions, [5, 10, 20, 40]),
    ("form_pairs", "`pairs` of terms of one table, as forms", pairs, [1_250, 2_500, 5_000, 10_000]),
    ("poly_pairs", "`pairs` of terms of one table, as polynomials", pairs, [1_250, 2_500, 5_000, 10_000]),
]


def timed(program, reading, path):
    """How much was made, and the seconds of the fastest of several runs."""
    best, made = None, ""
    for _ in range(ROUNDS):
        run = subprocess.run([program, reading, path], check=True, capture_output=True, text=True)
        made = run.stdout.split()[-1]
        micros = int(run.stderr.split()[-1])
        best = micros if best is None else min(best, micros)
    return made, best / 1_000_000


def main():
    here = os.path.dirname(os.path.abspath(__file__))
    default = os.path.join(here, "..", "crates", "grind_bench", "out", "grind_bench")
    program = sys.argv[1] if len(sys.argv) > 1 else default
    print("| Family | Size | Made | Seconds |")
    print("|---|---|---|---|")
    with tempfile.TemporaryDirectory() as folder:
        path = os.path.join(folder, "t.gr")
        for reading, title, make, sizes in FAMILIES:
            for size in sizes:
                with open(path, "w", encoding="utf-8") as file:
                    file.write(make(size))
                made, seconds = timed(program, reading, path)
                print(f"| {title} | {size:,} | {made} | {seconds:.6f} |")


if __name__ == "__main__":
    main()
