#!/usr/bin/env python3
"""Tries the wrong bodies of `edits/` that the gate does not try.

Usage: bench/edits.py [CRATE ..]          those of these crates, or of all
       bench/edits.py --since REVISION    those of each crate with a file that changed since then, or that stands on one

Each `edits/CRATE/NAME.edit` has the form of a must-fail edit (`rt help`). They are tried by `rt must-fail` over a scratch copy
of the repository as it stands, which begins with what checks on this machine kept. Those that the prover does not refuse, and those
that cannot be applied, are printed, and the status is then 1. Run it for each crate that changed.
"""

import os
import re
import shutil
import subprocess
import sys
import tempfile

TOP = os.path.realpath(os.path.join(os.path.dirname(os.path.abspath(__file__)), ".."))


def crates():
    """The crates of the repository with the libraries that each stands on, in order."""
    found = {}
    with open(os.path.join(TOP, "crates.txt"), encoding="utf-8") as lines:
        for line in lines:
            name, colon, below = line.partition(":")
            if colon:
                found[name.strip()] = below.split()
    return found


def edits_of(crate):
    """The names of a crate's edits."""
    folder = os.path.join(TOP, "edits", crate)
    return sorted(it for it in os.listdir(folder) if it.endswith(".edit")) if os.path.isdir(folder) else []


def changed_since(revision):
    """The crates with a file that changed since a revision, and those that stand on them."""
    said = subprocess.run(
        ["git", "-C", TOP, "diff", "--name-only", revision, "--", "crates", "edits"], check=True, capture_output=True, text=True
    ).stdout
    touched = {it.split("/")[1] for it in said.splitlines() if it.count("/") > 1}
    for crate, below in crates().items():
        if touched & set(below):
            touched.add(crate)
    return [it for it in crates() if it in touched]


def copied(room):
    """Copies the repository without what was built, and returns where to."""
    to = os.path.join(room, "copy")
    shutil.copytree(TOP, to, ignore=shutil.ignore_patterns("out", ".git", "edits"))
    os.mkdir(os.path.join(to, ".git"))
    return to


def tried(copy, crate):
    """Tries the edits of a crate over the copy, and returns how many were refused, and what was said of the others."""
    folder = os.path.join(copy, "crates", crate, "must-fail")
    shutil.rmtree(folder, ignore_errors=True)
    shutil.copytree(os.path.join(TOP, "edits", crate), folder)
    run = subprocess.run(["rt", "must-fail", crate], cwd=copy, check=False, capture_output=True, text=True, errors="replace")
    said = run.stdout + run.stderr
    told = dict(re.findall(rf"must-fail {crate}/(\S+\.edit): (.*)", said))
    missing = [it for it in edits_of(crate) if it not in told]
    if missing:
        return 0, [f"{crate}: {len(missing)} edits were not tried: {said.strip().splitlines()[-1:]}"]
    others = [f"{crate}/{name}: {text}" for name, text in sorted(told.items()) if not text.startswith("refused")]
    return len(told) - len(others), others


def main(words):
    if len(words) == 2 and words[0] == "--since":
        names = changed_since(words[1])
    elif any(it.startswith("-") for it in words):
        sys.exit(__doc__)
    else:
        names = words or list(crates())
    strange = [it for it in [*names, *os.listdir(os.path.join(TOP, "edits"))] if it not in crates()]
    if strange:
        sys.exit(f"no crate of this repository: {' '.join(strange)}")
    refused, others = 0, []
    with tempfile.TemporaryDirectory(prefix="grind-edits-") as room:
        copy = copied(room)
        for crate in [it for it in names if edits_of(it)]:
            more, said = tried(copy, crate)
            refused, others = refused + more, others + said
            print(f"{crate}: {more} of {len(edits_of(crate))} refused", *said, sep="\n  ", flush=True)
    print(f"{refused} edits refused, {len(others)} not")
    sys.exit(1 if others else 0)


if __name__ == "__main__":
    main(sys.argv[1:])
