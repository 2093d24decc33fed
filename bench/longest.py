#!/usr/bin/env python3
"""Writes the longest record that the rules allow, or nearly: 1.1 million lines.

    longest.py > FILE

20,000 ballots in as many runs, all audited, have 200,000 entries in one instance. All but two of them have five races of
two candidates, so that there are as many `paper` lines as can be; one has a race of sixteen, in which it is disputed
10,000 times. Twenty-six races of sixteen candidates stand before these, on no ballot, so that the numbers of the others
have two digits. There are 32 styles, and 4,096 public bytes are drawn. Names are short.
"""
import random
import sys

import record as made

VERSION, BALLOTS, DISPUTES, STYLES = 2, 20000, 10000, 32
EMPTY, PAIRS, LARGE = range(26), range(26, 31), 31
LAST = PAIRS[-2:]


def races_of(ballot):
    """The races on a ballot: the last ballot has two, and the last but one the race of sixteen."""
    if ballot == BALLOTS:
        return LAST
    return [LARGE] if ballot == BALLOTS - 1 else PAIRS


class Asked:
    """What record.py would be asked for on its command line. Each row is opened on both sides."""

    instances, draw, audited = 1, "5a" * 4096, BALLOTS


def make_races():
    draw = random.Random(1)
    races = []
    for number in range(LARGE + 1):
        carriers = sum(number in races_of(ballot) for ballot in range(BALLOTS - 2, BALLOTS + 1))
        carriers += BALLOTS - 3 if number in PAIRS else 0
        candidates = 2 if number in PAIRS else 16
        races.append(made.Race(draw, number, carriers, candidates, Asked.instances, 32768))
    return races


def write_plan(record, races):
    for line in ["scantegrity2 %d" % VERSION, "election Longest", "instances %d" % Asked.instances]:
        record.line(line)
    for race in races:
        record.line("race Race-%d %d 1" % (race.number, race.candidates))
        for candidate in range(race.candidates):
            record.line("cand Candidate-%d" % candidate)
    lists = [PAIRS, [LARGE], LAST] + [range(LARGE + 1)] * (STYLES - 3)
    for number, styled in enumerate(lists):
        record.line("style Style-%d %s" % (number, " ".join(str(race) for race in styled)))
    for ballot in range(1, BALLOTS + 1):
        record.line("ballots %d 1" % max(0, ballot - BALLOTS + 2))


def write_ballots(record, races):
    rank = [0] * len(races)
    for ballot in range(1, BALLOTS + 1):
        record.line("audited %d" % ballot)
        carried = [races[number] for number in races_of(ballot)]
        for race in carried:
            rank[race.number] += 1
            record.line("paper %d %s" % (race.number, race.paper(VERSION, rank[race.number])))
        for race in carried:
            for column in range(race.candidates):
                record.line(race.code_line(VERSION, rank[race.number], column))


def write_disputes(record, race):
    for _ in range(DISPUTES):
        claimed = made.code_word(VERSION, race.codes[0])
        record.line("dispute %d %d %s unposted" % (BALLOTS - 1, race.number, claimed))
        for column in range(race.candidates):
            record.line(race.code_line(VERSION, 1, column))


def main():
    races = make_races()
    record = made.Record(sys.stdout.buffer)
    write_plan(record, races)
    made.write_commitments(record, races, Asked.instances)
    write_ballots(record, races)
    made.write_results(record, races, Asked.instances)
    made.write_rows(record, races, Asked)
    write_disputes(record, races[LARGE])


if __name__ == "__main__":
    main()
