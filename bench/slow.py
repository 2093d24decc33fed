#!/usr/bin/env python3
"""Which functions of a crate took long to prove, by the files that its last check kept.

    slow.py CRATE [N]       (at the top of the repository, after `rt check --jobs 1` in the crate)

For each function: the seconds between the files of its proof and those before them, and the size of its `Lts`, which says
when values end. With more than one job the seconds of functions that were checked side by side mix. Files that the check
took from elsewhere have no seconds of their own.
"""
import collections
import os
import re
import sys

PARTS = "Lts|Proof|Tie|Code|Key|Layout|Met|TheLink|Statement|Named|Answers|Invariants|Given|Goals"


def kept(crate):
    """The files that a check kept: time, size and name, the earliest first."""
    found = []
    for at, _, names in os.walk(f"crates/{crate}/out/incremental"):
        for name in names:
            if name.endswith(".oantt"):
                it = os.stat(f"{at}/{name}")
                found.append((it.st_mtime, it.st_size, name))
    return sorted(found)


def function_of(name):
    """The function that a file belongs to, and the part of its proof that it is."""
    words = re.sub(r"(\.decls)?\.oantt$", "", re.sub(r"^Rattle-\w+-", "", name)).split(".")
    last = re.fullmatch(PARTS, words[-1])
    return ".".join(words[:-1] if last else words), words[-1]


def main():
    crate, most = sys.argv[1], int(sys.argv[2]) if len(sys.argv) > 2 else 20
    seconds, sizes = collections.Counter(), collections.Counter()
    files = kept(crate)
    for before, (time, size, name) in zip([files[0], *files] if files else [], files):
        function, part = function_of(name)
        seconds[function] += time - before[0]
        sizes[function] += size * (part == "Lts")
    for function, time in seconds.most_common(most):
        print(f"{time:8.1f} s  Lts {sizes[function] // 1000:6d} kB  {function}")


if __name__ == "__main__":
    main()
