#!/usr/bin/env python3
"""Which functions of a crate the check takes longest for.

Usage: bench/slow_goals.py CRATE [WORD ..]     checks the crate from nothing with one job, and prints a table, as Markdown
       bench/slow_goals.py CRATE --only F      the same of the function F and of those that it calls

The table has the processor seconds and the wall seconds between two lines `checked NAME, K of N`, longest first, each with its place in the
run, and ends with what came before the first line, what came after the last, and the sum. What a function is the first to load is in
its seconds, a lemma file above all, so look at its place, and at the function alone, by `--only`, before its proof is blamed. Each line also
goes to standard error as it comes, and a check that is ended from outside leaves the table of what it did. The crates below must stand: `rt check` in
the crate's folder builds them. Nothing is kept, and nothing that was kept is taken. More WORDs go to `rattle check`.
"""

import os
import re
import shutil
import subprocess
import sys
import time

TOP = os.path.dirname(os.path.dirname(os.path.abspath(__file__)))
LEAST = 0.5


def listed():
    """The crates of crates.txt, each with the libraries that it names."""
    crates = {}
    with open(f"{TOP}/crates.txt", encoding="utf-8") as it:
        for line in it:
            name, colon, below = line.partition("#")[0].partition(":")
            if colon:
                crates[name.split()[0]] = below.split()
    return crates


def command(crate, words):
    """The check of a crate, over the libraries as they were built."""
    crates = listed()
    if crate not in crates:
        sys.exit(f"slow_goals: crates.txt lists no crate {crate}")
    kit = os.path.dirname(os.path.dirname(os.path.realpath(shutil.which("rattle") or sys.exit("slow_goals: no rattle on the path"))))
    root = "main" if os.path.isfile(f"{TOP}/crates/{crate}/src/main.rt") else "lib"
    flags = ["--crate-name", crate, f"src/{root}.rt", "-L", f"dependency={kit}/rlibs"]
    for name in ["std", *crates[crate]]:
        rlib = f"{TOP}/crates/{name}/out/rlib/{name}.rlib" if name in crates else f"{kit}/rlibs/{name}.rlib"
        if not os.path.isdir(rlib):
            sys.exit(f"slow_goals: {name} is not built: run `rt check` in crates/{crate} first")
        flags += ["--extern", f"{name}={rlib}"]
    for name in crates:
        flags += ["-L", f"dependency={TOP}/crates/{name}/out/rlib"]
    flags += ["--antt-project", f"{kit}/rattle/logic/antt-project.json", "--logic-built", f"{kit}/logic_built"]
    return [f"{kit}/bin/rattle", "check", *flags, "--jobs", "1", "--progress", *words]


def spent(root):
    """The processor seconds of a process, of its children, and of those that ended."""
    whole, parents = {}, {}
    for pid in filter(str.isdigit, os.listdir("/proc")):
        try:
            with open(f"/proc/{pid}/stat", encoding="utf-8", errors="replace") as it:
                stat = it.read().rsplit(")", 1)[1].split()
        except (OSError, IndexError):
            continue
        parents[int(pid)] = int(stat[1])
        whole[int(pid)] = sum(int(it) for it in stat[11:15]) / os.sysconf("SC_CLK_TCK")
    found, level = 0.0, [root]
    while level:
        found += sum(whole.get(it, 0) for it in level)
        level = [pid for pid, parent in parents.items() if parent in level]
    return found


def timed(crate, words):
    """Runs the check, and returns its status and a list of a name, processor seconds and wall seconds for each of its lines of progress."""
    steps, before, begun = [], 0.0, time.time()
    how = {"cwd": f"{TOP}/crates/{crate}", "stdin": subprocess.DEVNULL, "stdout": subprocess.PIPE, "stderr": subprocess.STDOUT}
    with subprocess.Popen(command(crate, words), text=True, errors="replace", **how) as ran:
        for line in ran.stdout:
            seconds, now = spent(ran.pid), time.time()
            named = re.match(r"checked (.+), \d+ of \d+", line)
            if named:
                steps.append((named[1], seconds - before, now - begun))
                print(f"{seconds - before:.1f} {line}", end="", file=sys.stderr, flush=True)
                before, begun = seconds, now
            elif not line.startswith("fn ") and "checked=0" not in line:
                print(line, end="", file=sys.stderr, flush=True)
            last = max(seconds, before)
        steps.append(("after the last function", last - before, time.time() - begun))
    return ran.returncode, steps


def main(words):
    if not words or words[0].startswith("-"):
        sys.exit(__doc__)
    status, steps = timed(words[0], words[1:])
    print(f"| Place | Function of `{words[0]}` | Processor | Wall |")
    print("|---|---|---|---|")
    first, rest, last = steps[:1], steps[1:-1], steps[-1:]
    for place, (name, seconds, wall) in sorted(enumerate(rest, 2), key=lambda it: -it[1][1]):
        if seconds >= LEAST:
            print(f"| {place} | `{name}` | {seconds:.1f} | {wall:.1f} |")
    for name, seconds, wall in first:
        print(f"| 1 | the start, and `{name}` | {seconds:.1f} | {wall:.1f} |")
    for name, seconds, wall in last:
        print(f"| | {name} | {seconds:.1f} | {wall:.1f} |")
    print(f"| | all, {len(steps) - 1} functions | {sum(it[1] for it in steps):.1f} | {sum(it[2] for it in steps):.1f} |")
    sys.exit(status)


if __name__ == "__main__":
    main(sys.argv[1:])
