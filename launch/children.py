"""Commands that end when this one ends, in folders of their own."""

import ctypes
import os
import shutil
import signal
import subprocess
import tempfile
import time

STOPS = (signal.SIGINT, signal.SIGTERM, signal.SIGHUP)
# The number of prctl by which a child asks for a signal when its parent dies.
PR_SET_PDEATHSIG = 1


def stop_on_signals():
    """Lets the signals that stop a command end this one in order."""

    def stop(number, _):
        for it in STOPS:
            signal.signal(it, signal.SIG_IGN)
        raise SystemExit(128 + number)

    for it in STOPS:
        if signal.getsignal(it) != signal.SIG_IGN:
            signal.signal(it, stop)


def start(words, **how):
    """Starts a command that gets no signal of the terminal's, and is told to end if this process dies."""
    libc = ctypes.CDLL(None)
    return subprocess.Popen(
        words,
        start_new_session=True,
        preexec_fn=lambda: libc.prctl(PR_SET_PDEATHSIG, signal.SIGTERM),
        stdin=subprocess.DEVNULL,
        **how,
    )


def end(child):
    """Ends a command, which ends all that it started."""
    if child.poll() is None:
        child.terminate()
        try:
            child.wait(timeout=20)
        except subprocess.TimeoutExpired:
            child.kill()
            child.wait()


def new_room(kind):
    """Makes a folder for one run, and removes those of runs that were killed."""
    at = tempfile.gettempdir()
    for name in os.listdir(at):
        parts = name.split("-")
        if name.startswith(f"grind-{kind}-") and parts[2].isdigit() and not os.path.exists(f"/proc/{parts[2]}"):
            shutil.rmtree(os.path.join(at, name), ignore_errors=True)
    return tempfile.mkdtemp(prefix=f"grind-{kind}-{os.getpid()}-")


def remove_room(room):
    """Removes the folder of a run, also where a command that was ended still writes there."""
    for _ in range(20):
        shutil.rmtree(room, ignore_errors=True)
        if not os.path.lexists(room):
            return
        time.sleep(0.1)
