#!/usr/bin/env python3
"""Times the checker on proofs of growing size, on one thread and on several.

Usage: bench/check.py [--rounds N] [PROGRAM ..]

The families are `chain`, lines one behind the other; `tree`, pairs of branches, each of which goes on from the one before; and
`tables`, lines by truth tables that name the last term of a goal of 60,000 terms. With several programs each table row has a
time for each of them, and they take turns. PROGRAM is crates/grind_bench/out/grind_bench, which `rt run` in its folder builds. For each size and number of jobs the
table gives the seconds that the check took in the fastest of some runs, the growth against the proof of half the size,
and the part of the time that one job takes. Jobs 0 are the checker of one thread. The numbers of jobs take turns, so that
what else the machine does meets each of them; and loops of the lowest priority keep the processors awake, since on a
virtual machine one that sleeps may take milliseconds to begin. As root, the program runs before all else.
"""

import argparse
import contextlib
import os
import shutil
import subprocess
import sys
import tempfile

CHAINS = [250_000, 500_000, 1_000_000, 2_000_000]
TREES = [1_000, 2_000, 4_000, 8_000, 16_000, 32_000, 64_000]
TABLES = [500, 1_000, 2_000, 4_000]
JOBS = [0, 1, 2, 4]
TERMS = 60_000


def once(program, words):
    """The seconds of one check."""
    first = ["chrt", "-f", "50"] if os.geteuid() == 0 and shutil.which("chrt") else []
    run = subprocess.run([*first, program, *words], check=True, capture_output=True, text=True)
    if run.stdout.strip() != "made 1":
        sys.exit(f"{program} {words}: {run.stdout.strip()}")
    return int(run.stderr.split()[-1]) / 1_000_000


def fastest(programs, ways, rounds):
    """The seconds of the fastest check of several, for each program and way."""
    best = {}
    for _ in range(rounds):
        for program in programs:
            for way, words in ways.items():
                taken = once(program, words)
                best[program, way] = min(taken, best.get((program, way), taken))
    return best


@contextlib.contextmanager
def awake():
    """Keeps each processor busy with work that gives way to all other."""
    loop = ["nice", "-n", "19", sys.executable, "-c", "while True: pass"]
    loops = [subprocess.Popen(loop) for _ in range(os.cpu_count() or 1)]
    try:
        yield
    finally:
        for it in loops:
            it.kill()


def theory(folder):
    """A goal of so many terms: constants, and equations of neighbours."""
    count = (TERMS - 4) // 2
    names = " ".join(f"a{i}" for i in range(count))
    hyps = " ; ".join(f"a{i} = a{i + 1}" for i in range(count - 1))
    path = os.path.join(folder, "wide.gr")
    with open(path, "w") as out:
        out.write(f"sort S. fun f(S): S. goal g ({names}: S): {hyps} |- f(a0) = f(a0).\n")
    return path


def rows(programs, family, unit, sizes, ways_of, rounds):
    """The table rows of one family."""
    half = {}
    for size in sizes:
        ways = ways_of(size)
        with awake():
            taken = fastest(programs, ways, rounds)
        for way in ways:
            cells = []
            for program in programs:
                time = taken[program, way]
                before = half.get((program, way))
                growth = f"{time / before:.2f}" if before else ""
                part = f"{time / taken[program, 1]:.2f}" if (program, 1) in taken else ""
                cells.append(f"{time:.6f} | {growth} | {part}")
            print(f"| `{family}` | {size:,} {unit} | {way} | {' | '.join(cells)} |", flush=True)
        half = taken


def main():
    here = os.path.dirname(os.path.abspath(__file__))
    default = os.path.join(here, "..", "crates", "grind_bench", "out", "grind_bench")
    words = argparse.ArgumentParser()
    words.add_argument("--rounds", type=int, default=15)
    words.add_argument("programs", nargs="*", default=[default])
    given = words.parse_args()
    programs = given.programs
    print("| Family | Size | Jobs |" + " Seconds | Growth | Part of one job |" * len(programs))
    print("|---|---|---|" + "---|---|---|" * len(programs))
    with tempfile.TemporaryDirectory() as folder:
        name = theory(folder)
        jobs = lambda family: lambda size: {job: [family, str(size), str(job)] for job in JOBS}
        rows(programs, "chain", "lines", CHAINS, jobs("chain"), given.rounds)
        rows(programs, "tree", "branches", TREES, lambda size: {0: ["tree", str(size // 2), "0"]}, given.rounds)
        rows(programs, "tables", "lines", TABLES, lambda size: {0: ["tables", name, str(size)]}, given.rounds)


if __name__ == "__main__":
    main()
