#!/usr/bin/env python3
"""Finds names in code style in the documents that nothing in the repository has any more.

Usage: docs/names.py

A path must lead to a file or folder, from the top or from the document's own folder. A single word must stand in a source, a script or
a list of the repository, or below as a word of the toolchain. Prints each name that is lost, with its document and line; status 1 if there is one.
"""

import os
import re
import sys

TOP = os.path.dirname(os.path.dirname(os.path.abspath(__file__)))
DOCUMENTS = ["README.md", "bench/README.md"] + ["docs/" + name for name in ("ARCHITECTURE", "DECISIONS", "LANGUAGE", "PROVED", "PROVING", "REPORT")]
SOURCES = (".rt", ".antt", ".py", ".gr", ".txt", ".report")
# Words of the toolchain and of the subject that no source has.
OUTSIDE = {"rt"}
SPAN = re.compile(r"`([^`\n]+)`")
WORD = re.compile(r"[A-Za-z_][A-Za-z0-9_]*")
PATH = re.compile(r"[\w.\-]+(?:/[\w.\-]+)+/?|[\w\-]+\.(?:rt|antt|md|py|gr|txt|sh|report)")


def files(top):
    """All files of the repository but what is built."""
    for at, folders, names in os.walk(top):
        folders[:] = sorted(it for it in folders if it not in (".git", "out", "unlanded", "__pycache__"))
        for name in sorted(names):
            yield os.path.join(at, name)


def known(top):
    """The words of all sources, and the names of all files and folders."""
    words, names = set(OUTSIDE), set()
    for path in files(top):
        inside = os.path.relpath(path, top)
        parts = inside.split("/")
        names.update("/".join(parts[start:end]) for start in range(len(parts)) for end in range(start + 1, len(parts) + 1))
        words.update(part.split(".")[0] for part in parts)
        if parts[0] != "docs" and (inside.endswith(SOURCES) or "." not in parts[-1]):
            with open(path, encoding="utf-8", errors="replace") as file:
                words.update(WORD.findall(file.read()))
    return words, names


def is_lost(span, words, names):
    """Whether the span is a word or a path, and none of the repository's; what is built is in no repository."""
    if WORD.fullmatch(span):
        return span not in words
    path = span.removeprefix("./").rstrip("/")
    return bool(PATH.fullmatch(span)) and "out" not in path.split("/") and path not in names


def lost(document, words, names):
    """Each name in code style of the document that is not known, with its line."""
    fenced = False
    with open(os.path.join(TOP, document), encoding="utf-8") as file:
        for number, line in enumerate(file, 1):
            fenced ^= line.startswith("```")
            for span in [] if fenced else SPAN.findall(line):
                if is_lost(span, words, names):
                    yield number, span


def main():
    words, names = known(TOP)
    found = [(document, number, span) for document in DOCUMENTS if os.path.isfile(os.path.join(TOP, document)) for number, span in lost(document, words, names)]
    for document, number, span in found:
        print(f"{document}:{number}: nothing is called `{span}`")
    sys.exit(1 if found else 0)


if __name__ == "__main__":
    main()
