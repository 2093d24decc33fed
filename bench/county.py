#!/usr/bin/env python3
"""Inputs of `county`, and what must come out.

    county.py STDIN STDOUT        (in this folder)

appends steps of the part `offices` of crates/office_cases to STDIN, and to STDOUT the lines that say what must come
(parts.py writes and puts those of the crate). The parts are
the smallest record of examples/first with other names, its seals made anew, and records of made-up elections.
"""
import hashlib
import sys

from court import Case, changed, office_of, plan_of, text_of


def smallest(name="E", race="Mayor"):
    """The smallest record with these names, line by line, sealed anew."""
    with open("../examples/first/first.record") as file:
        lines = file.read().splitlines()
    lines = changed(lines, 1, "election " + name)
    return sealed(changed(lines, 3, "race %s 2 1" % race))


def sealed(lines):
    """The lines, where each seal is the hash of those before it."""
    out, hash = [], hashlib.sha256()
    for line in lines:
        if line.startswith("seal "):
            line = line[:7] + hash.hexdigest()
        hash.update((line + "\n").encode())
        out.append(line)
    return out


def joined(parts):
    lines = list(parts[0])
    for part in parts[1:]:
        lines += ["next"] + part
    return lines


def town(number, marks):
    """The record of a town with two races, whose ballots have these marks."""
    plan = plan_of(1, 2, [2, 3], len(marks))
    plan["name"] = "town-%d" % number
    office = office_of(plan, "%064x" % number, {at + 1: found for at, found in enumerate(marks)}, "%04x" % number)
    return Case(office).record


def towns():
    first = town(1, [[[0, 0], [1, 2]], [[0, 1]], [[0, 0], [1, 0]]])
    other = town(2, [[[0, 0], [1, 1]], [[1, 1]]])
    third = town(3, [[], [[0, 1], [1, 2]], [[0, 1]], [[0, 0]]])
    return [first, other, third]


def cases():
    """Names, inputs, what must come out, and the status."""
    one, other, clerk = smallest(), smallest("F"), smallest("G", "Clerk")
    wrong = sealed(changed(smallest("H"), 17, "total 0 0 2"))
    yield "empty", [], ["no 1 1 form"], 1
    yield "one", one, ["yes", "total 0 0 1", "total 0 1 0"], 0
    yield "same-twice", joined([one, one]), ["repeats 2 1"], 1
    yield "two", joined([one, other]), ["yes", "total 0 0 2", "total 0 1 0"], 0
    yield "other-race", joined([one, clerk]), ["differs 2"], 1
    yield "wrong-total", joined([one, sealed(changed(one, 17, "total 0 0 2"))]), ["no 2 18 total"], 1
    yield "nothing-behind-next", one + ["next"], ["no 2 1 form"], 1
    yield "nothing-before-next", ["next"] + one, ["no 1 1 form"], 1
    yield "next-twice", one + ["next", "next"] + other, ["no 2 1 form"], 1
    yield "first-cut", joined([one[:-1], other]), ["no 1 24 form"], 1
    yield "last-cut", joined([one, other[:-1]]), ["no 2 24 form"], 1
    yield "first-line", joined([one, changed(other, 0, "scantegrity2 3")]), ["no 2 1 form"], 1
    yield "old-seal", joined([one, changed(other, 12, one[12])]), ["no 2 13 seal"], 1
    yield "no-before-differs", joined([one, clerk[:-1]]), ["no 2 24 form"], 1
    yield "differs-before-repeats", joined([one, clerk, clerk]), ["differs 2"], 1
    yield "third-repeats-second", joined([one, other, other]), ["repeats 3 2"], 1
    yield "third-repeats-first", joined([one, other, one]), ["repeats 3 1"], 1
    yield "wrong-behind-repeats", joined([one, one, wrong]), ["repeats 2 1"], 1
    yield "third-wrong", joined([one, other, wrong]), ["no 3 18 total"], 1
    yield "next-in-a-part", one[:10] + ["next"] + one[10:], ["no 1 11 form"], 1
    hundred = [smallest("E%d" % at) for at in range(100)]
    yield "hundred", joined(hundred), ["yes", "total 0 0 100", "total 0 1 0"], 0
    yield "hundred-and-one", joined(hundred + [other]), ["refused parts"], 7
    yield "hundred-and-next", joined(hundred) + ["next"], ["refused parts"], 7
    yield "hundredth-repeats", joined(hundred[:99] + [hundred[0]]), ["repeats 100 1"], 1
    made = towns()
    yield "towns", joined(made), ["yes", "total 0 0 4", "total 0 1 3", "total 1 0 1", "total 1 1 2", "total 1 2 2"], 0
    yield "towns-turned", joined(made[::-1]), ["yes", "total 0 0 4", "total 0 1 3", "total 1 0 1", "total 1 1 2", "total 1 2 2"], 0


def main():
    with open(sys.argv[1], "ab") as into, open(sys.argv[2], "ab") as told:
        for name, lines, wanted, status in cases():
            given, wanted = text_of(lines).encode(), text_of(wanted).encode()
            into.write(b"county-%s county %d %d %d\n" % (name.encode(), len(given), len(wanted), status) + given + wanted)
            told.write(b"county-%s county %d %d\n" % (name.encode(), status, len(wanted)))


if __name__ == "__main__":
    main()
