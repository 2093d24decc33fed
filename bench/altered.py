#!/usr/bin/env python3
"""Writes a stream of records of offices that alter their tables, and of the smallest record changed, with their reports.

    altered.py STREAM REPORTS        (in this folder)

STREAM gets each record behind a line with its name and the number of its bytes, and REPORTS what an audit says of it.
The part `records` of crates/cases audits such streams.
"""
import io
import random
import sys

import record as made

BALLOTS, CANDIDATES, INSTANCES = 8, 2, 3


class Asked:
    """What record.py would be asked for on its command line."""

    version, candidates, instances, ballots, runs, spoiled, disputes = 1, [CANDIDATES], INSTANCES, BALLOTS, 1, 0, 0

    def __init__(self, draw, audited):
        self.draw, self.audited = draw, audited


def a_race(seed):
    return made.Race(random.Random(seed), 0, BALLOTS, CANDIDATES, INSTANCES, 1000)


def mark(race, ballots):
    """Marks the entry of candidate 0 on each of the ballots."""
    for ballot in ballots:
        for column in range(CANDIDATES):
            entry = (ballot - 1) * CANDIDATES + column
            if race.shown[entry] == 0:
                race.marked.add(entry)


def lead(race, instances, entry, other):
    """Exchanges the places of two entries in these instances."""
    for instance in instances:
        for row, left in enumerate(race.lefts[instance]):
            if left in (entry, other):
                race.rights[instance][row] = race.path[other if left == entry else entry]


def text_of(race, asked):
    """The record's text, where the marks stand already and the places follow the paths of the first instance."""
    out = io.BytesIO()
    record = made.Record(out)
    made.write_plan(record, asked)
    made.write_commitments(record, [race], INSTANCES)
    for ballot in range(1, BALLOTS + 1):
        if ballot <= asked.audited:
            record.line("audited %d" % ballot)
            record.line("paper 0 " + race.paper(1, ballot))
            for column in range(CANDIDATES):
                record.line(race.code_line(1, ballot, column))
        else:
            record.line("cast %d" % ballot)
            for column in range(CANDIDATES):
                if (ballot - 1) * CANDIDATES + column in race.marked:
                    record.line(race.code_line(1, ballot, column))
    race.path = [dict(zip(race.lefts[0], race.rights[0])).get(entry, place) for entry, place in enumerate(race.path)]
    made.write_results(record, [race], INSTANCES)
    made.write_rows(record, [race], asked)
    return out.getvalue()


def row_line(text, instance, row):
    """The number, from 1, of the line that opens this row."""
    lines = text.split(b"\n")
    draw = [number for number, line in enumerate(lines) if line.startswith(b"draw")][0]
    return draw + 2 + instance * BALLOTS * CANDIDATES + row


def vote_moved(public):
    """A marked entry of candidate 0 leads to an unused place of candidate 1, in all instances: nothing shows it."""
    race = a_race(1)
    mark(race, range(1, 6))
    entry = min(race.marked)
    other = next(q for q in range(race.entries) if race.path[q] % CANDIDATES == 1 and q // CANDIDATES != entry // CANDIDATES)
    lead(race, range(INSTANCES), entry, other)
    return text_of(race, Asked(public, 0)), "yes\ntotal 0 0 4\ntotal 0 1 1\n"


def pointer_twice():
    """Two rows of an instance that are opened left lead to one entry."""
    race, asked = a_race(2), Asked("0102", 0)
    public = made.hashlib.sha256(b"SC2COIN" + bytes.fromhex(asked.draw)).digest()
    sides = made.coins(public, 0, 1, race.entries)
    first, second = [row for row in range(race.entries) if not sides[row]][:2]
    race.lefts[1][second] = race.lefts[1][first]
    text = text_of(race, asked)
    return text, "no %d pointer\n" % row_line(text, 1, second)


def places_exchanged(instances, kind):
    """The places of an audited ballot's two entries are exchanged in these instances."""
    race, asked = a_race(3), Asked("0a", 1)
    lead(race, instances, 0, 1)
    text = text_of(race, asked)
    first = min(race.lefts[instances[0]].index(entry) for entry in (0, 1))
    return text, "no %d %s\n" % (row_line(text, instances[0], first), kind)


def off_coin():
    """A row is opened on the side that its coin doesn't name."""
    race, asked = a_race(4), Asked("00", 0)
    lines = text_of(race, asked).split(b"\n")
    number = row_line(b"\n".join(lines), 0, 3) - 1
    left = "left %s %d" % (race.left_keys[0][3].hex(), race.lefts[0][3])
    right = "right %s %d" % (race.right_keys[0][3].hex(), race.rights[0][3])
    lines[number] = (right if lines[number].startswith(b"left") else left).encode()
    return b"\n".join(lines), "no %d side\n" % (number + 1)


def audited_on_one_side():
    """A row of an audited entry is opened on its coin's side alone."""
    race, asked, rows = a_race(5), None, []
    for byte in range(256):
        asked = Asked("%02x" % byte, 1)
        public = made.hashlib.sha256(b"SC2COIN" + bytes.fromhex(asked.draw)).digest()
        sides = made.coins(public, 0, 0, race.entries)
        rows = [row for row, left in enumerate(race.lefts[0]) if left < CANDIDATES and not sides[row]]
        if rows:
            break
    row = rows[0]
    lines = text_of(race, asked).split(b"\n")
    number = row_line(b"\n".join(lines), 0, row) - 1
    lines[number] = b"left %s %d" % (race.left_keys[0][row].hex().encode(), race.lefts[0][row])
    return b"\n".join(lines), "no %d print\n" % (number + 1)


def of_the_smallest():
    """Changes to the smallest record, and what they are reported as."""
    lines = open("../examples/first/first.record", "rb").read().splitlines(keepends=True)
    whole = b"".join(lines)
    yes = "yes\ntotal 0 0 1\ntotal 0 1 0\n"
    claim = b"dispute 1 0 100 posted\n"
    code = lines[14]
    yield "ballot-behind-last-seal", whole + b"cast 1\n", "no 25 form\n"
    yield "dispute-cut", whole + claim + code, "no 27 form\n"
    yield "dispute-begun", whole + claim, "no 26 form\n"
    yield "before-dispute", whole, yes
    yield "second-line-too-long", lines[0] + b"e" * 16384 + b"\n" + b"".join(lines[2:]), "no 2 form\n"
    yield "ballots-past-20000", b"".join(lines[:7]) + b"ballots 0 20001\n" + b"".join(lines[8:]), "no 8 form\n"
    for cut in range(1, 24):
        yield "cut-behind-%d" % cut, b"".join(lines[:cut]), "no %d form\n" % (cut + 1)


def main():
    stream, reports = open(sys.argv[1], "wb"), open(sys.argv[2], "w")
    records = {
        "vote-moved-1": vote_moved("00"),
        "vote-moved-2": vote_moved("0badcafe"),
        "vote-moved-3": vote_moved("ff" * 32),
        "pointer-twice": pointer_twice(),
        "places-exchanged-in-one": places_exchanged([2], "path"),
        "places-exchanged-in-all": places_exchanged([0, 1, 2], "print"),
        "off-coin": off_coin(),
        "audited-on-one-side": audited_on_one_side(),
    }
    for name, text, report in of_the_smallest():
        records["smallest-" + name] = text, report
    for name, (text, report) in records.items():
        stream.write(b"%s %d\n" % (name.encode(), len(text)) + text)
        reports.write("%s %d\n%s" % (name, 0 if report.startswith("yes") else 1, report))


if __name__ == "__main__":
    main()
