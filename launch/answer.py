"""`./grind`: runs the proved program, or else answers from the sources, unproved."""

import os
import re
import resource
import shutil
import signal
import stat
import sys

import children
import sources

# Ends a call that has no answer. No status of the program is as high.
NO_ANSWER = 70
# The program's own status and note where its output cannot be written.
CANNOT_WRITE = 5
# What of a pipe or a device is read, in bytes.
MOST_READ = 1 << 26
# The stack that a run of the sources may take, in bytes: its checks make it deeper than that of the program.
STACK = 1 << 27
# Names that `rt try` keeps for itself where the program runs.
TAKEN = ("program", "stdin", "stdout", "stderr")
ENDED = re.compile(rb"^run=ended status=(\d{1,3}) .*proved=no\n\Z", re.M)
OF_THE_RUN = (b"interpreter:", b"checked:", b"races:", b"run=")
REASONS = (
    (b"wrote more than 1048576 bytes", "the output has more than 1 MiB, the most that a run of unproved sources may write"),
    (b"time limit", "the run took more than 60 seconds, the most that one of unproved sources may take"),
)


def say(text):
    os.write(2, f"grind: {text}\n".encode(errors="surrogateescape"))


def no_answer(why):
    say(f"no answer: {why}; ./prove proves and builds the program, in {sources.FROM_NOTHING}, and then ./grind is that program")
    return NO_ANSWER


def is_plain(word):
    """Whether `rt try` can lay a file under this name where the program runs."""
    parts = word.split("/")
    return not (os.path.isabs(word) or ".." in parts or "=" in word or os.path.normpath(word).startswith(TAKEN))


def copied(word, to):
    """Copies what a pipe or a device gives, and returns whether that is all of it."""
    with open(word, "rb") as one, open(to, "wb") as other:
        data = one.read(MOST_READ + 1)
        other.write(data)
    return len(data) <= MOST_READ


class Hand:
    """The words that the program gets, and the files that it gets beside them."""

    def __init__(self, words, folder, room):
        self.folder, self.room = folder, room
        self.files, self.names = [], {}
        # The first word is a command's, and no name of a file begins with a minus sign.
        self.words = words[:1] + [it if it.startswith("-") else self.word(it) for it in words[1:]]

    def word(self, word):
        """The word for a word that may name a file: itself, where it means the same to the program's run."""
        whole = os.path.join(os.getcwd(), word)
        try:
            mode = os.stat(word).st_mode
        except (OSError, ValueError):
            mode = 0
        is_known = mode and os.access(word, os.R_OK) and not stat.S_ISDIR(mode)
        if is_known and (not stat.S_ISREG(mode) or whole.startswith(("/dev/", "/proc/"))):
            whole = os.path.join(self.room, f"given-{len(self.names)}")
            if not copied(word, whole):
                raise OSError(f"{word} gives more than {MOST_READ} bytes")
        elif is_known and is_plain(word):
            self.files.append(word)
            return word
        elif not mode and is_plain(word) and not os.path.lexists(os.path.join(self.folder, word)):
            return word
        if whole != word:
            self.names[os.fsencode(whole)] = os.fsencode(word)
        return whole

    def command(self):
        handed = [it for file in self.files for it in ("--data", f"{file}={os.path.join(os.getcwd(), file)}")]
        return ["rt", "try", *handed, "--", *self.words]

    def named(self, notes):
        """The notes, with the names that the caller's words have."""
        for ours, theirs in self.names.items():
            notes = notes.replace(ours, theirs)
        return notes


def notes_in(said):
    """What the program wrote to standard error, without what `rt try` adds behind it."""
    lines = said.splitlines(keepends=True)
    while lines and lines[-1].startswith(OF_THE_RUN):
        lines.pop()
    return b"".join(lines)


def reason_in(said):
    """Why a run gave no answer."""
    lines = [it for it in said.splitlines() if it.strip() and not it.startswith(b"run=")]
    of_run = next((it for it in lines if it.startswith(b"checked:")), b"")
    for words, reason in REASONS:
        if words in of_run:
            return reason
    if of_run:
        return f"the run ended otherwise than by itself ({of_run[:200].decode(errors='replace')})"
    told = (lines or [b"it said nothing"])[0][:200].decode(errors="replace")
    return f"`rt try` failed here, or the toolchain is not whole ({told})"


def raise_stack():
    """Lets the run have a deep stack, where the system allows that."""
    soft, hard = resource.getrlimit(resource.RLIMIT_STACK)
    wanted = STACK if hard == resource.RLIM_INFINITY else min(STACK, hard)
    if soft != resource.RLIM_INFINITY and soft < wanted:
        resource.setrlimit(resource.RLIMIT_STACK, (wanted, hard))


def write_whole(to, data):
    while data:
        data = data[os.write(to, data):]


def answer_in(room, words):
    """Answers by a run of the sources. Nothing is written before that run has ended well."""
    folder = os.path.join(sources.TOP, "crates", sources.PROGRAM)
    try:
        "".join(words).encode()
        hand = Hand(words, folder, room)
        "".join(hand.words).encode()
    except UnicodeEncodeError:
        return no_answer("a word or a folder's name is no UTF-8 text")
    with open(f"{room}/out", "w+b") as out, open(f"{room}/err", "w+b") as err:
        child = children.start(
            hand.command(), cwd=folder, stdout=out, stderr=err, env={**os.environ, "TMPDIR": room, "RT_SECONDS": "60"}
        )
        try:
            child.wait()
        finally:
            children.end(child)
        out.seek(0)
        err.seek(0)
        report, said = out.read(), err.read()
    ended = ENDED.search(said)
    if not ended:
        return no_answer(reason_in(said))
    try:
        write_whole(1, report)
    except OSError:
        say("cannot write")
        return CANNOT_WRITE
    os.write(2, hand.named(notes_in(said)))
    return int(ended[1])


def answer(words):
    say(f"answering from sources that are not proved on this machine; ./prove proves them, in {sources.FROM_NOTHING}")
    if not shutil.which("rt"):
        return no_answer("there is no command `rt`, Rattle's, which this and ./prove need")
    children.stop_on_signals()
    raise_stack()
    try:
        room = children.new_room("answer")
    except OSError as error:
        return no_answer(str(error))
    try:
        return answer_in(room, words)
    except OSError as error:
        return no_answer(str(error))
    finally:
        children.remove_room(room)


def main(words):
    try:
        program = sources.current_program()
    except OSError as error:
        return no_answer(f"the sources cannot be read ({error})")
    if not program:
        return answer(words)
    signal.signal(signal.SIGPIPE, signal.SIG_DFL)
    os.execv(program, [program, *words])


if __name__ == "__main__":
    sys.exit(main(sys.argv[1:]))
