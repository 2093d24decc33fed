#!/usr/bin/env python3
"""Writes a whole public record of an election that it makes up.

    record.py BALLOTS CANDIDATES[,CANDIDATES..] [--instances M] [--version V] [--draw full|HEX] [--seed N] [--runs N]
              [--audited A] [--spoiled S] [--disputes D] [--given] > FILE

There is a race for each number of candidates, one style that has them all, and BALLOTS ballots in so many runs. The
first A ballots are audited, the next S spoiled, and each other one is cast with one mark in each race. Everything but
the coins is drawn from the seed with Python's own generator, and hashes are hashlib's, so the file owes nothing to the
program that it is to time. With --given the sheet and the openings of all rows follow, as `recount` reads them.
"""
import argparse
import hashlib
import random
import struct
import sys

SIGNS = "23456789ABCDEFGHJKLMNPQRSTUVWXYZ"


def commitment(kind, race, instance, place, key, value):
    head = kind + struct.pack(">HHI", race, instance, place)
    return hashlib.sha256(head + key + struct.pack(">I", value)).hexdigest()


def code_word(version, code):
    if version == 1:
        return "%03d" % code
    return SIGNS[code >> 10] + SIGNS[code >> 5 & 31] + SIGNS[code & 31]


def turned(word, count):
    return ((word << count) | (word >> (32 - count))) & 0xFFFFFFFF


def quarter(x, a, b, c, d):
    x[a] = (x[a] + x[b]) & 0xFFFFFFFF
    x[d] = turned(x[d] ^ x[a], 16)
    x[c] = (x[c] + x[d]) & 0xFFFFFFFF
    x[b] = turned(x[b] ^ x[c], 12)
    x[a] = (x[a] + x[b]) & 0xFFFFFFFF
    x[d] = turned(x[d] ^ x[a], 8)
    x[c] = (x[c] + x[d]) & 0xFFFFFFFF
    x[b] = turned(x[b] ^ x[c], 7)


def block(key, stream, counter):
    """The words of a ChaCha20 block, with a counter and a stream of 64 bits each."""
    start = list(struct.unpack("<4I", b"expand 32-byte k") + struct.unpack("<8I", key))
    start += [counter & 0xFFFFFFFF, counter >> 32, stream & 0xFFFFFFFF, stream >> 32]
    x = start[:]
    for _ in range(10):
        for at in range(4):
            quarter(x, at, at + 4, at + 8, at + 12)
        for at in range(4):
            quarter(x, at, (at + 1) % 4 + 4, (at + 2) % 4 + 8, (at + 3) % 4 + 12)
    return [(a + b) & 0xFFFFFFFF for a, b in zip(x, start)]


def coins(key, race, instance, count):
    """Whether each row's coin opens the right side."""
    found = []
    for at in range((count + 15) // 16):
        found += [word % 2 == 1 for word in block(key, race * 2**32 + instance, at)]
    return found[:count]


class Record:
    """The text of a record, with the running hash that its seals are taken of."""

    def __init__(self, out):
        self.out = out
        self.hash = hashlib.sha256()

    def line(self, text):
        data = (text + "\n").encode()
        self.hash.update(data)
        self.out.write(data)

    def seal(self, number):
        self.line("seal %d %s" % (number, self.hash.hexdigest()))

    def bits(self, head, bits):
        for at in range(0, len(bits), 64):
            self.line(head + " " + "".join("1" if bit else "0" for bit in bits[at : at + 64]))


class Race:
    """Tables of one race: codes by entry, the candidate that each shows, its place, and the pointers of each row."""

    def __init__(self, draw, number, ballots, candidates, instances, codes_there_are):
        self.number, self.candidates, self.entries = number, candidates, ballots * candidates
        key = lambda: draw.getrandbits(128).to_bytes(16, "big")
        self.codes = [c for _ in range(ballots) for c in draw.sample(range(codes_there_are), candidates)]
        self.shown = [c for _ in range(ballots) for c in draw.sample(range(candidates), candidates)]
        self.keys = [key() for _ in range(self.entries)]
        orders = [draw.sample(range(ballots), ballots) for _ in range(candidates)]
        self.path = [orders[self.shown[q]][q // candidates] * candidates + self.shown[q] for q in range(self.entries)]
        self.lefts = [draw.sample(range(self.entries), self.entries) for _ in range(instances)]
        self.rights = [[self.path[q] for q in lefts] for lefts in self.lefts]
        self.left_keys = [[key() for _ in range(self.entries)] for _ in range(instances)]
        self.right_keys = [[key() for _ in range(self.entries)] for _ in range(instances)]
        self.marked = set()

    def code_line(self, version, ballot, column):
        entry = (ballot - 1) * self.candidates + column
        return "code %d %d %s %s" % (self.number, column, self.keys[entry].hex(), code_word(version, self.codes[entry]))

    def openings(self, instance, row):
        """The keys and pointers of a row, left and right."""
        left = "%s %d" % (self.left_keys[instance][row].hex(), self.lefts[instance][row])
        return left, "%s %d" % (self.right_keys[instance][row].hex(), self.rights[instance][row])

    def paper(self, version, ballot):
        """The codes of the ballot's paper, by candidate."""
        first = (ballot - 1) * self.candidates
        by_candidate = {self.shown[first + c]: self.codes[first + c] for c in range(self.candidates)}
        return " ".join(code_word(version, by_candidate[j]) for j in range(self.candidates))


def write_plan(record, asked):
    record.line("scantegrity2 %d" % asked.version)
    record.line("election Bench")
    record.line("instances %d" % asked.instances)
    for number, candidates in enumerate(asked.candidates):
        record.line("race Race-%d %d 1" % (number, candidates))
        for candidate in range(candidates):
            record.line("cand Candidate-%d" % candidate)
    record.line("style All " + " ".join(str(number) for number in range(len(asked.candidates))))
    for run in range(asked.runs):
        rest = asked.ballots % asked.runs if run == 0 else 0
        record.line("ballots 0 %d" % (asked.ballots // asked.runs + rest))


def write_commitments(record, races, instances):
    for race in races:
        for entry in range(race.entries):
            digest = commitment(b"Q", race.number, 0, entry, race.keys[entry], race.codes[entry])
            record.line("code-commit %d %s" % (race.number, digest))
    for race in races:
        for instance in range(instances):
            for row, left in enumerate(race.lefts[instance]):
                record.line(
                    "row-commit %d %d %s %s"
                    % (
                        race.number,
                        instance,
                        commitment(b"L", race.number, instance, row, race.left_keys[instance][row], left),
                        commitment(b"R", race.number, instance, row, race.right_keys[instance][row], race.rights[instance][row]),
                    )
                )
    record.seal(1)


def write_ballots(record, races, draw, asked):
    for ballot in range(1, asked.ballots + 1):
        if ballot <= asked.audited:
            record.line("audited %d" % ballot)
            for race in races:
                record.line("paper %d %s" % (race.number, race.paper(asked.version, ballot)))
            for race in races:
                for column in range(race.candidates):
                    record.line(race.code_line(asked.version, ballot, column))
        elif ballot <= asked.audited + asked.spoiled:
            record.line("spoiled %d" % ballot)
        else:
            record.line("cast %d" % ballot)
            for race in races:
                column = draw.randrange(race.candidates)
                race.marked.add((ballot - 1) * race.candidates + column)
                record.line(race.code_line(asked.version, ballot, column))


def write_results(record, races, instances):
    for race in races:
        for instance in range(instances):
            record.bits("flags %d %d" % (race.number, instance), [q in race.marked for q in race.lefts[instance]])
        places = [False] * race.entries
        for entry in race.marked:
            places[race.path[entry]] = True
        record.bits("places %d" % race.number, places)
        for candidate in range(race.candidates):
            record.line("total %d %d %d" % (race.number, candidate, sum(places[candidate :: race.candidates])))
    record.seal(2)


def write_rows(record, races, asked):
    record.line("draw " + asked.draw)
    public = None if asked.draw == "full" else hashlib.sha256(b"SC2COIN" + bytes.fromhex(asked.draw)).digest()
    for race in races:
        for instance in range(asked.instances):
            sides = coins(public, race.number, instance, race.entries) if public else []
            for row, left in enumerate(race.lefts[instance]):
                left_text, right_text = race.openings(instance, row)
                if public is None or left // race.candidates < asked.audited:
                    record.line("both %s %s" % (left_text, right_text))
                elif sides[row]:
                    record.line("right " + right_text)
                else:
                    record.line("left " + left_text)
    record.seal(3)


def write_disputes(record, races, asked):
    for number in range(asked.disputes):
        race, ballot = races[number % len(races)], number % asked.ballots + 1
        first = (ballot - 1) * race.candidates
        word = "posted" if first in race.marked else "unposted"
        record.line("dispute %d %d %s %s" % (ballot, race.number, code_word(asked.version, race.codes[first]), word))
        for column in range(race.candidates):
            record.line(race.code_line(asked.version, ballot, column))


def write_given(record, races, asked):
    """What a court is handed in: the sheet, and both openings of each row."""
    record.line("printing")
    for ballot in range(1, asked.ballots + 1):
        record.line("ballot %d 0" % ballot)
        for race in races:
            record.line("codes %d %s" % (race.number, race.paper(asked.version, ballot)))
    record.line("completion")
    for race in races:
        for instance in range(asked.instances):
            for row in range(race.entries):
                record.line("both %s %s" % race.openings(instance, row))


def main():
    words = argparse.ArgumentParser()
    words.add_argument("ballots", type=int)
    words.add_argument("candidates", type=lambda text: [int(word) for word in text.split(",")])
    words.add_argument("--instances", type=int, default=1)
    words.add_argument("--version", type=int, default=1)
    words.add_argument("--draw", default="full")
    words.add_argument("--seed", type=int, default=1)
    words.add_argument("--runs", type=int, default=1)
    words.add_argument("--audited", type=int, default=0)
    words.add_argument("--spoiled", type=int, default=0)
    words.add_argument("--disputes", type=int, default=0)
    words.add_argument("--given", action="store_true")
    asked = words.parse_args()
    draw = random.Random(asked.seed)
    codes_there_are = 1000 if asked.version == 1 else 32768
    races = [
        Race(draw, number, asked.ballots, candidates, asked.instances, codes_there_are)
        for number, candidates in enumerate(asked.candidates)
    ]
    record = Record(sys.stdout.buffer)
    write_plan(record, asked)
    write_commitments(record, races, asked.instances)
    write_ballots(record, races, draw, asked)
    write_results(record, races, asked.instances)
    write_rows(record, races, asked)
    write_disputes(record, races, asked)
    if asked.given:
        write_given(record, races, asked)


if __name__ == "__main__":
    main()
