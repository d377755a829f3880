#!/usr/bin/env python3
"""Where the gate's processor time goes.

Usage: bench/gate_clock.py run LOG [COMMAND ..]     runs COMMAND (`rt ci --anew` where none is given) and samples beside it
       bench/gate_clock.py watch LOG [SECONDS]      samples alone, until it is stopped or SECONDS have passed
       bench/gate_clock.py table LOG                prints the table of a log, as Markdown

The table has the processor seconds of each crate, longest first: of its proof by itself, of its proof with its tests, and
of its must-fail edits (the check that they begin with, and each edit), the most memory that one check took, and the minutes for
each thousand lines of code. It ends with the sums, with what the gate takes for each part of the proofs, and with the
longest single check. What a check used after its last sample, a quarter of a second at most, is not seen. Run it on an otherwise
idle machine: processors that share a core, and a busy cache, make each second worth less.
"""

import collections
import json
import os
import re
import subprocess
import sys
import threading
import time

KINDS = ("proof", "tests", "edits")
PAUSE = 0.25


def checks():
    """Yields the key, folder, command, processor seconds and memory in MB of each check that runs now."""
    tick, page = os.sysconf("SC_CLK_TCK"), os.sysconf("SC_PAGE_SIZE")
    for pid in filter(str.isdigit, os.listdir("/proc")):
        try:
            with open(f"/proc/{pid}/cmdline", encoding="utf-8", errors="replace") as it:
                command = it.read().split("\0")
            if os.path.basename(command[0]) != "rattle":
                continue
            with open(f"/proc/{pid}/stat", encoding="utf-8", errors="replace") as it:
                stat = it.read().rsplit(")", 1)[1].split()
            folder = os.readlink(f"/proc/{pid}/cwd")
        except (OSError, IndexError):
            continue
        seconds = (int(stat[11]) + int(stat[12])) / tick
        yield (pid, stat[19]), folder, " ".join(command[1:]), seconds, int(stat[21]) * page >> 20


def watch(log, is_over):
    """Samples the checks of this machine into a log, a line for each check that ended, until told that it is over."""
    begun, seen = time.time(), {}
    with open(log, "w", encoding="utf-8", buffering=1) as out:
        while True:
            last, here = is_over(time.time() - begun), set()
            for key, folder, command, seconds, memory in checks():
                here.add(key)
                old = seen.get(key, {"start": time.time() - begun, "memory": 0})
                seen[key] = {
                    "folder": folder,
                    "command": command,
                    "cpu": seconds,
                    "start": old["start"],
                    "end": time.time() - begun,
                    "memory": max(memory, old["memory"]),
                }
            for key in [it for it in seen if last or it not in here]:
                out.write(json.dumps(seen.pop(key)) + "\n")
            if last:
                return
            time.sleep(PAUSE)


def run(log, command):
    """Runs a command, samples beside it, and returns its status."""
    done = threading.Event()
    beside = threading.Thread(target=watch, args=(log, lambda _: done.is_set()))
    beside.start()
    try:
        return subprocess.run(command, check=False).returncode
    finally:
        done.set()
        beside.join()


def lines_of(crate):
    """The lines of code of a crate of this repository, tests included."""
    here = os.path.dirname(os.path.abspath(__file__))
    count = 0
    for at, _, names in os.walk(os.path.join(here, "..", "crates", crate, "src")):
        for name in names:
            if name.endswith(".rt"):
                with open(os.path.join(at, name), encoding="utf-8") as it:
                    count += sum(1 for _ in it)
    return count


def crate_of(it):
    """The crate that a sampled check is of, and its kind."""
    named = re.search(r"--crate-name (\S+)", it["command"])
    kind = "edits" if "rt-edit" in it["folder"] else "tests" if " --test" in it["command"] else "proof"
    return named[1] if named else os.path.basename(it["folder"]), kind


def table(log):
    """Prints the table of a log."""
    sums, most, longest, begun, ended = collections.defaultdict(collections.Counter), collections.Counter(), (0, "", ""), [], []
    with open(log, encoding="utf-8") as lines:
        for line in lines:
            it = json.loads(line)
            crate, kind = crate_of(it)
            sums[crate][kind] += it["cpu"]
            most[crate] = max(most[crate], it["memory"])
            longest = max(longest, (it["cpu"], crate, kind))
            begun.append(it["start"])
            ended.append(it["end"])
    print("| Crate | Proof | Tests | Edits | All | MB | Lines | Minutes a 1,000 lines |")
    print("|---|---|---|---|---|---|---|---|")
    whole, all_lines = collections.Counter(), 0
    for crate, by in sorted(sums.items(), key=lambda it: -sum(it[1].values())):
        whole.update(by)
        lines = lines_of(crate)
        all_lines += lines
        rate = f"{sum(by.values()) / 60 / lines * 1000:.1f}" if lines else ""
        cells = " | ".join(f"{by[kind]:.0f}" for kind in KINDS)
        print(f"| `{crate}` | {cells} | {sum(by.values()):.0f} | {most[crate]:,} | {lines:,} | {rate} |")
    minutes = sum(whole.values()) / 60
    cells = " | ".join(f"{whole[kind] / 60:.1f}" for kind in KINDS)
    print(f"| all, in minutes | {cells} | {minutes:.1f} | {max(most.values(), default=0):,} | {all_lines:,} | {minutes / max(all_lines, 1) * 1000:.1f} |")
    if whole["proof"]:
        print(f"\nThe whole gate took {minutes * 60 / whole['proof']:.2f} times what the crates' own proofs took.")
    print(f"The longest single check took {longest[0] / 60:.1f} minutes: {longest[2]} of `{longest[1]}`.")
    print(f"From the first check to the last: {(max(ended, default=0) - min(begun, default=0)) / 60:.0f} minutes.")


def main(words):
    if len(words) >= 2 and words[0] == "run":
        status = run(words[1], words[2:] or ["rt", "ci", "--anew"])
        table(words[1])
        sys.exit(status)
    elif len(words) in (2, 3) and words[0] == "watch":
        most = float(words[2]) if len(words) == 3 else float("inf")
        watch(words[1], lambda passed: passed > most)
    elif len(words) == 2 and words[0] == "table":
        table(words[1])
    else:
        sys.exit(__doc__)


if __name__ == "__main__":
    main(sys.argv[1:])
