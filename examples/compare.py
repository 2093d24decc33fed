#!/usr/bin/env python3
"""Compares two copies of a public record, for a party that has its own.

    python3 examples/compare.py A B

It says of each seal whether both copies have it and agree, which of the four sections are
the same bytes, the first line that differs, and whether one copy is a front of the other:
an earlier copy. Section 4, the disputes, stands under no seal, so two copies with three
equal seals may have other disputes; they are compared by themselves. The exit status is 0
where the copies are the same bytes, 1 where they are not, 2 where the words are wrong and
3 where a file could not be read.

It judges nothing: whether a copy is any good an audit says. Copies with equal seals have
the same bytes before these seals only if the digest on each seal's line is the right one,
so the digests are computed here too.
"""

import hashlib
import sys
from collections import Counter

NAMES = ("", "1, before voting", "2, when voting has ended", "3, when sides are drawn", "4, disputes")


class Copy:
    """The lines of a copy, by section, and its seals."""

    def __init__(self, name):
        self.name = name
        with open(name, "rb") as source:
            self.text = source.read()
        *whole, rest = self.text.split(b"\n")
        self.lines = [line + b"\n" for line in whole] + ([rest] if rest else [])
        self.sections = {1: [], 2: [], 3: [], 4: []}
        self.seals = {}  # number -> its digest, and whether that is the right one
        before, section = hashlib.sha256(), 1
        for line in self.lines:
            self.sections[section].append(line)
            if section < 4 and line.startswith(b"seal %d " % section):
                digest = line.split(b" ")[2].strip().decode("latin-1")
                self.seals[section] = (digest, digest == before.hexdigest())
                section += 1
            before.update(line)

    def disputes(self):
        """How often each dispute's line stands there, in whatever order."""
        return Counter(line for line in self.sections[4] if line.startswith(b"dispute "))


def shown(line):
    """A line as it may be shown: a long one is cut, and only plain signs stand in it."""
    signs = (chr(byte) if 0x20 <= byte < 0x7F else "\\x%02x" % byte for byte in line[:120].rstrip(b"\n"))
    return "".join(signs) + (" .." if len(line) > 121 else "")


def tell_seals(a, b):
    for number in (1, 2, 3):
        if number not in a.seals or number not in b.seals:
            lacking = [copy.name for copy in (a, b) if number not in copy.seals]
            yield f"seal {number}: {' and '.join(lacking)} has none"
            continue
        (first, first_right), (second, second_right) = a.seals[number], b.seals[number]
        yield f"seal {number}: {'equal' if first == second else 'DIFFERENT'}"
        for copy, right in (a, first_right), (b, second_right):
            if not right:
                yield f"  in {copy.name} it is not the digest of the bytes before it"


def tell_sections(a, b):
    for number in (1, 2, 3, 4):
        first, second = a.sections[number], b.sections[number]
        same = "equal" if first == second else "DIFFERENT"
        counts = f"{len(first)} lines" if len(first) == len(second) else f"{len(first)} and {len(second)} lines"
        yield f"section {NAMES[number]}: {same} ({counts})"


def tell_difference(a, b):
    """The first line that differs, or whether one copy is a front of the other."""
    for number, (first, second) in enumerate(zip(a.lines, b.lines), 1):
        if first != second:
            yield f"line {number} is the first that differs:"
            yield from (f"  {copy.name}: {shown(line)}" for copy, line in ((a, first), (b, second)))
            break
    for early, late in ((a, b), (b, a)):
        if a.text != b.text and late.text.startswith(early.text):
            yield f"{early.name} is a front of {late.name}, an earlier copy: {late.name} goes on behind line {len(early.lines)}"


def tell_disputes(a, b):
    if a.sections[4] == b.sections[4]:
        return
    first, second = a.disputes(), b.disputes()
    yield "disputes: " + ("the same, in another order or with other codes" if first == second else "DIFFERENT; no seal shows it")
    for alone, copy in (first - second, a), (second - first, b):
        for line in list(alone)[:20]:
            yield f"  more often in {copy.name}: {shown(line)}"


def main(words):
    if len(words) != 2:
        print("use: compare.py A B", file=sys.stderr)
        return 2
    try:
        a, b = Copy(words[0]), Copy(words[1])
    except OSError as cause:
        print(f"a copy could not be read: {cause}", file=sys.stderr)
        return 3
    print("the copies are " + ("the same bytes" if a.text == b.text else "DIFFERENT"))
    for tell in (tell_seals, tell_sections, tell_difference, tell_disputes):
        print("".join(line + "\n" for line in tell(a, b)), end="")
    return 0 if a.text == b.text else 1


if __name__ == "__main__":
    sys.exit(main(sys.argv[1:]))
