#!/usr/bin/env python3
"""What the programs of cases, crates/cases and crates/office_cases, must print of each of their parts: in the file `stdout`, after a line
with two equals signs and the part's name.

    parts.py PART            writes what must be printed of the part
    parts.py PART FILE       puts what FILE has in its place

The input of the part is the file data/PART of its crate.
"""
import os
import sys

CRATES = os.path.join(os.path.dirname(os.path.abspath(__file__)), "..", "crates")
HEAD = b"== "


def bytes_of(*path):
    with open(os.path.join(*path), "rb") as file:
        return file.read()


def crate_of(part):
    """The folder of the crate that plays a part."""
    for name in ("cases", "office_cases"):
        if os.path.exists(os.path.join(CRATES, name, "data", part)):
            return os.path.join(CRATES, name)
    sys.exit("no part has the name " + part)


def input_of(part):
    """The input of a part."""
    return bytes_of(crate_of(part), "data", part)


def all_told(crate):
    """What a crate must print of each part, in the order in which they are played."""
    told = {}
    for line in bytes_of(crate, "stdout").splitlines(keepends=True):
        if line.startswith(HEAD):
            part = line[len(HEAD) :].decode().strip()
            told[part] = b""
        else:
            told[part] += line
    return told


def told_of(part):
    """What must be printed of a part."""
    return all_told(crate_of(part))[part]


def put(part, text):
    """Puts this text in its place."""
    crate = crate_of(part)
    told = all_told(crate)
    told[part] = text
    with open(os.path.join(crate, "stdout"), "wb") as file:
        for name, of_part in told.items():
            file.write(HEAD + name.encode() + b"\n" + of_part)


def main():
    if len(sys.argv) == 2:
        sys.stdout.buffer.write(told_of(sys.argv[1]))
    elif len(sys.argv) == 3:
        put(sys.argv[1], bytes_of(sys.argv[2]))
    else:
        sys.exit(__doc__)


if __name__ == "__main__":
    main()
