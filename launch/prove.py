"""`./prove`: proves the program's crates from nothing, side by side, and builds the program.

The work is `rt ci`'s, over a copy of the sources of the program alone, without the edits that a check must refuse: it takes
the crates whose libraries stand, the longest chain of crates first, as many at once as there are processors and memory, and
keeps what it has proved on this machine, for later calls of `rt ci` too.
"""

import fcntl
import os
import re
import select
import shutil
import subprocess
import sys
import time

import children
import sources

NOT_PROVED = 2
LOG = os.path.join(sources.OUT, "prove.log")
# What `rt ci` says as a crate ends.
CRATE_ENDS = re.compile(r"^rt: (\w+) (proved|is kept|NOT PROVED)(?:: its library (\w+) failed)?")
CRATE_WAITS = re.compile(r"^rt: (\w+): another run on this machine is proving the same")
NOTE = re.compile(r"^rt: note: .*\b(kept|disk)\b")
TESTS_FAIL = re.compile(r"^rt: (\w+): its tests (?:are NOT PROVED|FAILED)")
USAGE = "usage: ./prove [--anew]"


def say(text):
    print(f"prove: {text}", flush=True)


def cannot(why):
    print(f"prove: {why}", file=sys.stderr, flush=True)
    return NOT_PROVED


class Progress:
    """Which crates have begun and ended."""

    def __init__(self, crates, folder):
        self.crates, self.folder = crates, folder
        self.begun, self.told, self.failed, self.waiting, self.notes = {}, set(), [], [], []

    def name(self, crate):
        return f"crate {self.begun[crate][0]} of {len(self.crates)}: {crate}"

    def begin(self, crate):
        if crate not in self.begun:
            self.begun[crate] = len(self.begun) + 1, time.monotonic()

    def seconds(self, crate):
        return time.monotonic() - self.begun[crate][1]

    def look(self):
        """Tells which crates are being proved: `rt ci` makes a folder for what the check of a crate writes."""
        for crate in self.crates:
            if os.path.isdir(f"{self.folder}/crates/{crate}/out"):
                self.begin(crate)
        for crate in self.begun:
            # (what an earlier run has proved is there in a moment)
            if crate not in self.told and self.seconds(crate) > 3:
                self.told.add(crate)
                say(self.name(crate))

    def read(self, line):
        """Takes a line of `rt ci`."""
        found, waits, tests = (it.match(line) for it in (CRATE_ENDS, CRATE_WAITS, TESTS_FAIL))
        if NOTE.match(line):
            self.notes.append(line[len("rt: note: ") :].strip())
        if waits and waits[1] in self.crates:
            self.begin(waits[1])
            self.told.add(waits[1])
            say(f"{self.name(waits[1])} is being proved by another run on this machine; waiting for that")
        if tests:
            self.failed.append(tests[1])
        if found and found[1] in self.crates:
            self.end(found[1], found[2], found[3])

    def end(self, crate, how, lacks):
        self.begin(crate)
        self.told.add(crate)
        if how == "proved":
            say(f"{self.name(crate)} is proved, in {self.seconds(crate):.0f} s")
        elif how == "is kept":
            say(f"{self.name(crate)} was proved by an earlier run on this machine")
        elif lacks:
            self.waiting.append(crate)
        else:
            self.failed.append(crate)
            say(f"{self.name(crate)} is NOT PROVED")


def lines_of(child, progress):
    """The lines that a command writes, as they come."""
    told, left = child.stdout.fileno(), b""
    while True:
        progress.look()
        if not select.select([told], [], [], 0.5)[0]:
            continue
        data = os.read(told, 1 << 16)
        *whole, left = (left + data).split(b"\n")
        yield from (it.decode(errors="replace") for it in whole)
        if not data:
            return


def prove_in(room, anew):
    """Proves a copy of the sources in this folder, and keeps the program."""
    repository = os.path.join(room, "repository")
    # (`rt ci` runs at the top of a repository)
    os.makedirs(os.path.join(repository, ".git"))
    os.mkdir(os.path.join(room, "tmp"))
    for folder in (room, os.path.join(room, "tmp")):
        # (it runs the program as nobody, where it is called by root)
        os.chmod(folder, 0o711)
    total = sources.copy_to(repository)
    progress = Progress(list(sources.crate_lines()), repository)
    words = ["rt", "ci", *["--anew"] * anew]
    how = {"cwd": repository, "stdout": subprocess.PIPE, "stderr": subprocess.STDOUT}
    child = children.start(words, env={**os.environ, "TMPDIR": os.path.join(room, "tmp")}, **how)
    last = ""
    try:
        with open(LOG, "w", encoding="utf-8") as log:
            for line in lines_of(child, progress):
                log.write(line.replace(repository, sources.TOP) + "\n")
                log.flush()
                progress.read(line)
                last = line.removeprefix("rt: ") if line.startswith("rt: ") else last
        status = child.wait()
    finally:
        children.end(child)
        child.stdout.close()
    for note in progress.notes:
        say(note)
    if progress.failed:
        wait = f", and {len(progress.waiting)} above wait for that" if progress.waiting else ""
        return cannot(f"{', '.join(dict.fromkeys(progress.failed))}: not proved{wait}; {os.path.relpath(LOG)} says why")
    if status:
        return cannot(f"`rt ci` ended with status {status} ({last[:200]}); {os.path.relpath(LOG)} has all that it said")
    sources.keep(os.path.join(repository, "crates", sources.PROGRAM, "out", sources.PROGRAM), total)
    return 0


def prove(anew):
    began = time.monotonic()
    if not shutil.which("rt"):
        return cannot("there is no command `rt`, Rattle's, on the PATH")
    say(f"{len(sources.crate_lines())} crates; with nothing kept from earlier runs it takes {sources.FROM_NOTHING}")
    room = children.new_room("prove")
    try:
        status = prove_in(room, anew)
    except SystemExit:
        cannot("interrupted; call ./prove again, and it goes on from what is proved")
        raise
    finally:
        children.remove_room(room)
    if status:
        return status
    seconds = time.monotonic() - began
    if not sources.current_program():
        return cannot("the program is proved, but its sources have changed meanwhile: call ./prove again")
    say(f"proved and built, in {seconds:.0f} s; ./grind is the proved program now")
    return 0


def main(words):
    if words not in ([], ["--anew"]):
        return cannot(USAGE)
    children.stop_on_signals()
    with open(os.path.realpath(__file__), "rb") as lock:
        try:
            fcntl.flock(lock, fcntl.LOCK_EX | fcntl.LOCK_NB)
        except BlockingIOError:
            say("another ./prove is at work in this checkout; waiting for it to end")
            fcntl.flock(lock, fcntl.LOCK_EX)
        try:
            os.makedirs(sources.OUT, exist_ok=True)
            if not words and sources.current_program():
                say("./grind is the proved program, of exactly these sources: nothing to do")
                return 0
            return prove(bool(words))
        except OSError as error:
            return cannot(str(error))


if __name__ == "__main__":
    sys.exit(main(sys.argv[1:]))
