"""What the program is made from, and where the proved program stands."""

import hashlib
import os
import shutil
import stat

TOP = os.path.dirname(os.path.dirname(os.path.realpath(__file__)))
PROGRAM = "grind_main"
OUT = os.path.join(TOP, "out")
# What `./prove` takes with nothing kept from earlier runs.
FROM_NOTHING = "some fifteen minutes on four processors"
# Folders of a crate from which the program is not made.
LEFT_OUT = ("out", "must-fail")


def crate_lines():
    """The line of crates.txt for each crate of the program, by name, each crate after those that it stands on."""
    lines, below = {}, {}
    with open(os.path.join(TOP, "crates.txt"), encoding="utf-8") as file:
        for line in file:
            line = line.partition("#")[0].strip()
            if line:
                head, _, stands_on = line.partition(":")
                name = head.split()[0]
                lines[name], below[name] = line, stands_on.replace(",", " ").split()
    found = {}

    def visit(name):
        if name in lines and name not in found:
            for it in below[name]:
                visit(it)
            found[name] = lines[name]

    visit(PROGRAM)
    return found


def files_of(crate):
    """The files of a crate from which the program is made, as paths below TOP."""
    found = []
    for at, folders, names in os.walk(os.path.join(TOP, "crates", crate)):
        if os.path.basename(os.path.dirname(at)) == "crates":
            folders[:] = [it for it in folders if it not in LEFT_OUT]
        found += [os.path.relpath(os.path.join(at, name), TOP) for name in names]
    return sorted(found)


def read_all(take=lambda path, data: None):
    """Reads each source of the program once, hands it to `take`, and returns the sum of all of them."""
    lines = crate_lines()
    texts = {"crates.txt": "".join(f"{it}\n" for it in lines.values()).encode()}
    paths = ["HANDLES"] + [path for crate in sorted(lines) for path in files_of(crate)]
    total = hashlib.sha256()
    for path in ["crates.txt", *paths]:
        data = texts.get(path)
        if data is None:
            with open(os.path.join(TOP, path), "rb") as file:
                data = file.read()
        take(path, data)
        total.update(repr((os.fsencode(path), len(data))).encode() + data)
    return total.hexdigest()


def copy_to(folder):
    """Copies the sources of the program to a new folder, and returns the sum of what was copied."""

    def take(path, data):
        to = os.path.join(folder, path)
        os.makedirs(os.path.dirname(to), exist_ok=True)
        with open(to, "wb") as file:
            file.write(data)

    return read_all(take)


def place_of(total):
    """Where the program stands that was proved from the sources of this sum."""
    return os.path.join(OUT, f"grind-{total[:32]}")


def current_program():
    """The program that was proved from exactly the sources that stand, or None."""
    if not os.path.isdir(OUT):
        return None
    place = place_of(read_all())
    return place if os.path.isfile(place) and os.access(place, os.X_OK) else None


def keep(program, total):
    """Keeps a program that was proved from the sources of this sum, and lets go of those of other sources."""
    place = place_of(total)
    new, link = (os.path.join(OUT, f"new-{os.getpid()}{it}") for it in ("", "-link"))
    shutil.copyfile(program, new)
    os.chmod(new, stat.S_IRWXU | stat.S_IRGRP | stat.S_IXGRP | stat.S_IROTH | stat.S_IXOTH)
    os.replace(new, place)
    os.symlink(os.path.basename(place), link)
    os.replace(link, os.path.join(OUT, PROGRAM))
    for name in os.listdir(OUT):
        if name.startswith(("grind-", "new-")) and name != os.path.basename(place):
            os.remove(os.path.join(OUT, name))
