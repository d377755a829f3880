#!/usr/bin/env python3
"""Times the proved program on goals that congruence decides, and z3 beside it where it is installed.

Usage: bench/congruence.py [PROGRAM]

PROGRAM is out/grind_main, which `./prove` builds. For each family and size the table gives the
seconds of the fastest of three runs and the growth against half the size, and the same of z3 in the same run.
"""

import os
import random
import shutil
import signal
import subprocess
import sys
import tempfile
import threading
import time

ROUNDS = 3
LIMIT_SECONDS = float(os.environ.get("LIMIT_SECONDS", "60"))


def chain(n):
    """A chain of n equal constants."""
    names = [f"c{i}" for i in range(n + 1)]
    return names, [], [(f"c{i}", f"c{i + 1}") for i in range(n)], ("c0", f"c{n}")


def cycle(n):
    """`f` applied n times, by constants, with two cycles whose lengths have no common divisor."""
    names = [f"c{i}" for i in range(n + 1)]
    pairs = [(f"c{i + 1}", f"(f c{i})") for i in range(n)]
    return names, [("f", 1)], pairs + [(f"c{n}", "c0"), (f"c{n - 1}", "c0")], ("c1", "c0")


def tree(n):
    """A balanced tree of n leaves, once over each of two rows of equal leaves."""
    def over(row):
        while len(row) > 1:
            row = [f"(g {a} {b})" for a, b in zip(row[::2], row[1::2])] + row[len(row) & ~1:]
        return row[0]

    left = [f"a{i}" for i in range(n)]
    right = [f"b{i}" for i in range(n)]
    return left + right, [("g", 2)], list(zip(left, right)), (over(left), over(right))


def ladder(n):
    """Two sides of n rungs, each made from both sides of the one below by a function of two arguments."""
    names = [f"{side}{i}" for side in "ab" for i in range(n + 1)]
    pairs = [("a0", "b0")]
    for i in range(n):
        pairs += [(f"a{i + 1}", f"(g a{i} b{i})"), (f"b{i + 1}", f"(g b{i} a{i})")]
    return names, [("g", 2)], pairs, (f"a{n}", f"b{n}")


def graph(n):
    """A random tree over n constants. One edge of ten is a congruence, the others are equations; in any order."""
    draw = random.Random(n)
    names, pairs = [f"c{i}" for i in range(n)], []
    for i in range(1, n):
        other = draw.randrange(i)
        if draw.random() < 0.1:
            names += [f"p{i}", f"q{i}"]
            pairs += [(f"c{i}", f"(f p{i})"), (f"c{other}", f"(f q{i})"), (f"p{i}", f"q{i}")]
        else:
            pairs.append((f"c{i}", f"c{other}"))
    draw.shuffle(pairs)
    return names, [("f", 1)], pairs, ("c0", f"c{n - 1}")


def line(n):
    """A line of n equations between constants, in any order."""
    names, functions, pairs, ends = chain(n)
    random.Random(n).shuffle(pairs)
    return names, functions, pairs, ends


def broken(n):
    """A line of n equations between constants, in any order, without the one in the middle: the goal stays open."""
    names, functions, pairs, ends = chain(n)
    del pairs[n // 2]
    random.Random(n).shuffle(pairs)
    return names, functions, pairs, ends


def nested(n):
    """`f` applied 150 times to each of n / 150 constants, which are equal."""
    count = max(n // 150, 2)
    names = [f"{side}{i}" for side in "cd" for i in range(count)]
    pairs = [(f"d{i}", "(f " * 150 + f"c{i}" + ")" * 150) for i in range(count)]
    pairs += [(f"c{i}", f"c{i + 1}") for i in range(count - 1)]
    return names, [("f", 1)], pairs, ("d0", f"d{count - 1}")


def infix(term):
    """A term of the theory language, from one with its function inside the parentheses."""
    out, after = [], False
    for word in term.replace("(", " ( ").replace(")", " ) ").split():
        if word == "(":
            after = True
        elif after:
            out.append(word + "(")
            after = False
        elif word == ")":
            out.append(")")
        else:
            out.append(word)
    text = " ".join(out).replace("( ", "(").replace(" )", ")")
    return text.replace(" ", ", ")


def theory(parts, goals=1):
    names, functions, pairs, (left, right) = parts
    lines = ["sort S."]
    lines += [f"fun {f}({', '.join(['S'] * count)}): S." for f, count in functions]
    hyps = " ; ".join(f"{infix(a)} = {infix(b)}" for a, b in pairs)
    for i in range(goals):
        lines.append(f"goal t{i} ({' '.join(names)}: S): {hyps} |- {infix(left)} = {infix(right)}.")
    return "\n".join(lines) + "\n"


def script(parts, goals=1):
    names, functions, pairs, (left, right) = parts
    lines = ["(set-logic QF_UF)", "(declare-sort S 0)"]
    lines += [f"(declare-fun {f} ({' '.join(['S'] * count)}) S)" for f, count in functions]
    lines += [f"(declare-const {name} S)" for name in names]
    for _ in range(goals):
        lines.append("(push)")
        lines += [f"(assert (= {a} {b}))" for a, b in pairs]
        lines += [f"(assert (not (= {left} {right})))", "(check-sat)", "(pop)"]
    return "\n".join(lines) + "\n"


def once(words):
    """The seconds of one run, or None where it is over the limit. The wait is one call: a wait with a limit asks again and again, ever later."""
    start = time.perf_counter()
    program = subprocess.Popen(words, stdout=subprocess.DEVNULL)
    over = threading.Timer(LIMIT_SECONDS, program.kill)
    over.start()
    status = program.wait()
    taken = time.perf_counter() - start
    over.cancel()
    return None if status == -signal.SIGKILL else taken


def fastest(words):
    best = None
    for _ in range(ROUNDS):
        taken = once(words)
        if taken is None:
            return None
        best = taken if best is None else min(best, taken)
        if taken > 5:
            break
    return best


def shown(taken, half):
    if taken is None:
        return f"over {LIMIT_SECONDS:g}", ""
    return f"{taken:.3f}", "" if half is None else f"{taken / half:.2f}"


FAMILIES = [
    ("chain", [2500, 5000, 10000, 20000], lambda n: (chain(n), 1)),
    ("cycle", [1250, 2500, 5000, 10000], lambda n: (cycle(n), 1)),
    ("tree", [512, 1024, 2048, 4096], lambda n: (tree(n), 1)),
    ("ladder", [625, 1250, 2500, 5000], lambda n: (ladder(n), 1)),
    ("graph", [2000, 4000, 8000, 16000], lambda n: (graph(n), 1)),
    ("line", [2500, 5000, 10000, 20000], lambda n: (line(n), 1)),
    ("broken", [2500, 5000, 10000, 20000], lambda n: (broken(n), 1)),
    ("nested", [2500, 5000, 10000, 20000], lambda n: (nested(n), 1)),
    ("goals", [500, 1000, 2000, 4000], lambda n: (cycle(5), n)),
]


def main():
    top = os.path.dirname(os.path.dirname(os.path.abspath(__file__)))
    built = os.path.join(top, "out", "grind_main")
    program = os.path.abspath(sys.argv[1]) if len(sys.argv) > 1 else built
    if not os.access(program, os.X_OK):
        sys.exit(f"{program}: not built yet; ./prove builds it")
    other = shutil.which("z3")
    print("| family | size | seconds | growth | z3 seconds | z3 growth |")
    print("|---|---|---|---|---|---|")
    with tempfile.TemporaryDirectory() as folder:
        for name, sizes, make in FAMILIES:
            half = other_half = None
            for size in sizes:
                parts, goals = make(size)
                path, smt = os.path.join(folder, "t.gr"), os.path.join(folder, "t.smt2")
                with open(path, "w", encoding="ascii") as file:
                    file.write(theory(parts, goals))
                with open(smt, "w", encoding="ascii") as file:
                    file.write(script(parts, goals))
                taken = fastest([program, "solve", path])
                row = [name, f"{size:,}", *shown(taken, half)]
                if other:
                    other_taken = fastest([other, smt])
                    row += shown(other_taken, other_half)
                    other_half = other_taken
                else:
                    row += ["", ""]
                half = taken
                print("| " + " | ".join(row) + " |", flush=True)
                if taken is None:
                    break


if __name__ == "__main__":
    main()
