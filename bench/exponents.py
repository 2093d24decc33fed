#!/usr/bin/env python3
"""Inputs of `odds` about small offices whose posted totals are wrong, with the exponents that must come out.

    exponents.py                  counts, says what it counted, and looks whether the steps stand in crates/office_cases
    exponents.py STDIN STDOUT     counts, and appends steps of the part `offices` of crates/office_cases to STDIN, and to STDOUT
                                  the lines that say what must come (parts.py writes and puts those of the crate)

The exponents stand here with each election, and no line of the program is run. Each is borne out twice:

- From the coins. For every list of coins, one for each row, the record that opens its rows so is judged by
  examples/auditor.py, with the list in place of the coins of its draw. An instance has the power p where one in two to the
  power p of the lists of its own coins occurs in a list that gets yes. The exponent is the least power of the race's
  instances, times their number. Where the wrong rows of one instance are of several candidates, it is less than that.
- From the gaps. In each instance the marked entries that the rows handed in lead to a candidate are counted, and compared
  with the candidate's total.

In each election, and for each race, at most one in two to the exponent of all lists of coins gets yes. Ends with status 1
where something is not as it must be.
"""
import io
import itertools
import json
import random
import sys

import record as made
from audited import auditor
from court import Altered, Case
from office import Election
from parts import input_of, told_of


# OFFICES


class Small:
    """An election of one style. For each race stand how many candidates it has, and whom each ballot marks."""

    runs = 1

    def __init__(self, version, instances, *races, audited=0):
        self.version, self.instances, self.audited = version, instances, audited
        self.candidates, self.ballots = [count for count, _ in races], len(races[0][1])
        draw = random.Random("%d %d %s" % (version, instances, races))
        codes = 1000 if version == 1 else 32768
        self.races = [made.Race(draw, at, self.ballots, count, instances, codes) for at, count in enumerate(self.candidates)]
        for race, (count, marks) in zip(self.races, races):
            race.marked = {row * count + race.shown[row * count :].index(mark) for row, mark in enumerate(marks) if mark is not None}
            race.places = {race.path[entry] for entry in race.marked}
            race.is_flagged = lambda race, entry, place: entry in race.marked

    # WHAT THE OFFICE ALTERS

    def add(self, number, candidate, count=1):
        """Sets places of the candidate that no mark leads to, of no audited ballot."""
        race = self.races[number]
        free = [place for entry, place in enumerate(race.path) if entry >= self.audited * race.candidates and place not in race.places]
        race.places.update([place for place in free if place % race.candidates == candidate][:count])
        return self

    def lose(self, number, candidate, count=1):
        """Clears places of the candidate."""
        race = self.races[number]
        race.places.difference_update([place for place in sorted(race.places) if place % race.candidates == candidate][:count])
        return self

    def lead(self, number, instances, entry, place):
        """Leads an entry to this place in these instances, and the one that had it to the place of this one."""
        race = self.races[number]
        for instance in instances:
            rights = race.rights[instance]
            one, other = race.lefts[instance].index(entry), rights.index(place)
            rights[one], rights[other] = rights[other], rights[one]
        return self

    def flag_by_places(self, number):
        """Flags the rows that lead to set places, in place of those of marked entries."""
        self.races[number].is_flagged = lambda race, entry, place: place in race.places
        return self

    # WHAT IT POSTS

    def write_ballots(self, record):
        for ballot in range(1, self.ballots + 1):
            is_audited = ballot <= self.audited
            record.line("%s %d" % ("audited" if is_audited else "cast", ballot))
            for race in self.races if is_audited else []:
                record.line("paper %d %s" % (race.number, race.paper(self.version, ballot)))
            for race in self.races:
                for column in range(race.candidates):
                    if is_audited or (ballot - 1) * race.candidates + column in race.marked:
                        record.line(race.code_line(self.version, ballot, column))

    def write_results(self, record):
        for race in self.races:
            for instance, rows in enumerate(zip(race.lefts, race.rights)):
                record.bits("flags %d %d" % (race.number, instance), [race.is_flagged(race, *row) for row in zip(*rows)])
            record.bits("places %d" % race.number, [place in race.places for place in range(race.entries)])
            for candidate in range(race.candidates):
                record.line("total %d %d %d" % (race.number, candidate, sum(place % race.candidates == candidate for place in race.places)))
        record.seal(2)

    def text(self, digits):
        """What is handed in where these public bytes are drawn."""
        self.draw, out = digits, io.BytesIO()
        record = made.Record(out)
        made.write_plan(record, self)
        made.write_commitments(record, self.races, self.instances)
        self.write_ballots(record)
        self.write_results(record)
        made.write_rows(record, self.races, self)
        made.write_given(record, self.races, self)
        return out.getvalue().decode()


class Styled:
    """An election in which each ballot has the second race, and the last one the first too. The office adds votes to both."""

    def __init__(self):
        races = [{"name": name, "candidates": ["Ada", "Ben"], "votes": 1} for name in ("Mayor", "Council")]
        styles = [{"name": "Short", "races": [1]}, {"name": "All", "races": [0, 1]}]
        plan = {"version": 2, "name": "E", "instances": 2, "races": races, "styles": styles}
        plan["runs"] = [{"style": 0, "ballots": 2}, {"style": 1, "ballots": 1}]
        self.file = {"plan": plan, "seed": "%064x" % 60, "secrets": ["00" * 16]}

    def text(self, digits):
        office = Altered(Election(json.dumps(self.file)))
        for ballot, marks in ((1, [[1, 0]]), (2, []), (3, [[0, 1], [1, 1]])):
            office.accept({"ask": "scan", "ballot": ballot, "marks": marks, "station": 0})
        unset = lambda race, candidate: {place for place in office.election.tables[race].path if place % 2 == candidate} - office.places(race)
        office.stuffed = {0: unset(0, 0), 1: unset(1, 1)}
        office.accept({"ask": "close"})
        office.accept({"ask": "draw", "draw": digits})
        return "".join(line + "\n" for line in Case(office).text())


# ALL LISTS OF COINS


def auditor_of(coins):
    """examples/auditor.py with these coins of each race and instance in place of those of a draw."""
    names = auditor()
    names["coins"] = lambda public, race, instance: iter(coins[race, instance])
    return names["audit"]


class Given:
    """What is handed in, taken apart: the record to its line `draw`, and each row with its race, instance and halves."""

    def __init__(self, text):
        lines = text.splitlines()
        at = next(number for number, line in enumerate(lines) if line.startswith("draw "))
        self.front = "".join(line + "\n" for line in lines[: at + 1]).encode()
        self.record = "".join(line + "\n" for line in lines[: lines.index("printing")]).encode()
        self.slots = [tuple(map(int, line.split(" ")[1:3])) for line in lines if line.startswith("row-commit ")]
        self.halves = [line.split(" ")[1:] for line in lines[lines.index("completion") + 1 :]]
        self.posted = lines[at + 1 : at + 1 + len(self.slots)]
        self.first_row = at + 2  # its line, from 1
        self.coins = {slot: [] for slot in self.slots}
        self.audit = auditor_of(self.coins)

    def opened(self, coins):
        """The record whose rows are opened on the sides of these coins, and those of audited ballots on both."""
        out = io.BytesIO()
        record = made.Record(out)
        out.write(self.front)
        record.hash.update(self.front)
        for posted, (left_key, left, right_key, right), coin in zip(self.posted, self.halves, coins):
            if posted.startswith("both "):
                record.line(posted)
            else:
                record.line("right %s %s" % (right_key, right) if coin else "left %s %s" % (left_key, left))
        record.seal(3)
        return out.getvalue()

    def bad_row(self, coins):
        """The first row that is bad with these coins, or none: then the verdict is yes."""
        for listed in self.coins.values():
            listed.clear()
        for slot, coin in zip(self.slots, coins):
            self.coins[slot].append(coin)
        report, status, _ = self.audit(io.BytesIO(self.opened(coins)))
        row = None if status == 0 else int(report.split(" ")[1]) - self.first_row
        assert row is None or 0 <= row < len(self.slots), report
        return row

    def lists_with_yes(self):
        """All lists of coins that get yes. Up to 4,096 lists are judged one by one. Of more, those are passed over that have
        the same coins as an earlier one up to its bad row: an auditor reads the rows in order, and finds it bad again."""
        count, at, found = len(self.slots), 0, []
        while at < 2**count:
            coins = [at >> (count - 1 - row) & 1 for row in range(count)]
            bad = self.bad_row(coins)
            if bad is None:
                found.append(coins)
            behind = 1 if bad is None or count <= 12 else 2 ** (count - 1 - bad)
            at = (at // behind + 1) * behind
        return found

    # WHAT FOLLOWS

    def powers(self, lists):
        """The powers of each race's instances."""
        found = {}
        for race, instance in self.coins:
            rows = [row for row, slot in enumerate(self.slots) if slot == (race, instance)]
            occur = len({tuple(coins[row] for row in rows) for coins in lists})
            power = (2 ** len(rows) // occur).bit_length() - 1
            assert occur * 2**power == 2 ** len(rows), (race, instance, occur)
            found.setdefault(race, []).append(power)
        return [found[race] for race in sorted(found)]

    def gaps(self):
        """Of each race and candidate how far the total is, in each instance, from the marked entries that are led there."""
        report, status, read = auditor()["audit"](io.BytesIO(self.record))
        assert status == 0, report
        for number, race in enumerate(read.races):
            led = [[0] * race.k for _ in range(read.instances)]
            for (of_race, instance), (_, left, _, right) in zip(self.slots, self.halves):
                if of_race == number and int(left) in race.marked:
                    led[instance][int(right) % race.k] += 1
            yield [[abs(race.totals[candidate] - counts[candidate]) for counts in led] for candidate in range(race.k)]


def drawn(office):
    """What is handed in behind the first public bytes that let the record pass."""
    audit = auditor()["audit"]
    for number in itertools.count():
        text = office.text("%04x" % number)
        if audit(io.BytesIO(text.split("printing\n")[0].encode()))[1] == 0:
            return text


# ELECTIONS


def unequal(version, instances, ballots, nearer):
    """Ben has the only vote. Ada's total is all ballots, and Ben's none: in these instances his vote is led to her."""
    office = Small(version, instances, (2, [1] + [None] * (ballots - 1))).lose(0, 1).add(0, 0, ballots)
    return office.lead(0, nearer, *vote_and_place(office))


def vote_and_place(office):
    """The first marked entry of the first race, and the first place of candidate 0."""
    race = office.races[0]
    return min(race.marked), min(place for place in race.path if place % race.candidates == 0)


def right_in_one():
    """Ben has the only vote, and the only total is Ada's: in the second instance his vote is led to her."""
    office = Small(1, 2, (2, [1, None])).lose(0, 1)
    vote, place = vote_and_place(office)
    office.races[0].places.add(place)
    return office.lead(0, [1], vote, place)


def elections():
    """Names and elections, with the exponent of each race and the powers of its instances."""
    yield "one-added", Small(1, 1, (2, [None])).add(0, 1), [(1, [1])]
    yield "one-lost", Small(2, 1, (2, [0, 1])).lose(0, 0), [(1, [1])]
    yield "two-added", Small(2, 2, (2, [0, None, None])).add(0, 0, 2), [(4, [2, 2])]
    yield "two-lost", Small(1, 3, (2, [1, 1])).lose(0, 1, 2), [(6, [2, 2, 2])]
    # Ada has one vote less and Ben one more.
    yield "one-exchanged", Small(1, 2, (2, [0, None])).lose(0, 0).add(0, 1), [(2, [2, 2])]
    # Ada's gap is the number of ballots, or one less; Ben's is 1, or 0.
    yield "first-nearer", unequal(1, 2, 3, [0]), [(4, [2, 4])]
    yield "second-nearer", unequal(2, 3, 2, [1]), [(3, [3, 1, 3])]
    yield "last-nearer", unequal(1, 3, 2, [2]), [(3, [3, 3, 1])]
    yield "right-in-one", right_in_one(), [(0, [2, 0])]
    yield "two-races", Small(2, 1, (2, [0, None]), (3, [2, 2])).add(0, 1).lose(1, 2, 2), [(1, [1]), (2, [2])]
    yield "second-race", Small(1, 2, (3, [1]), (2, [None])).add(1, 0), [(0, [0, 0]), (2, [1, 1])]
    # Ada's total is right, Ben's is two too high, Cy's one too low.
    yield "three-candidates", Small(2, 2, (3, [0, 2])).add(0, 1, 2).lose(0, 2), [(4, [3, 3])]
    # The rows of the audited ballot are opened on both sides, whatever their coins.
    yield "one-audited", Small(2, 2, (2, [None, 0, None]), audited=1).add(0, 1, 2), [(4, [2, 2])]
    # Here the wrong rows pass where they are opened on the right.
    yield "opened-right", Small(1, 2, (2, [1, None])).add(0, 0).flag_by_places(0), [(2, [1, 1])]
    yield "two-styles", Styled(), [(2, [1, 1]), (4, [2, 2])]
    # No exponent is more than the ballots times the instances: nobody voted, and all ballots count for Ada.
    yield "greatest", Small(2, 5, (2, [None, None])).add(0, 0, 2), [(10, [2] * 5)]


# elections in which wrong rows of one instance are of several candidates
SEVERAL = {"one-exchanged", "three-candidates"}


def bear_out(name, given, wanted):
    """Compares with what is counted, and says it."""
    lists, gaps = given.lists_with_yes(), list(given.gaps())
    powers = given.powers(lists)
    assert powers == [of_race for _, of_race in wanted], (name, powers)
    print("%s: %d of 2^%d lists get yes" % (name, len(lists), len(given.slots)))
    for (exponent, _), of_race, apart in zip(wanted, powers, gaps):
        least = len(of_race) * min(of_race)
        assert exponent < least if name in SEVERAL else exponent == least, (name, exponent, least)
        assert exponent == len(of_race) * max(min(of_candidate) for of_candidate in apart), (name, exponent, apart)
        assert len(lists) * 2**exponent <= 2 ** len(given.slots), (name, exponent, len(lists))
        print("    exponent %d; powers %s; gaps %s" % (exponent, of_race, apart))


def steps():
    """The steps, and the lines that say what must come."""
    into, told = b"exponents rows 0 0 0\n", b""
    for name, office, wanted in elections():
        text = drawn(office)
        bear_out(name, Given(text), wanted)
        given, output = text.encode(), "".join("exponent %d %d\n" % (race, exponent) for race, (exponent, _) in enumerate(wanted)).encode()
        into += b"exponents-%s odds %d %d 0\n" % (name.encode(), len(given), len(output)) + given + output
        told += b"exponents-%s odds 0 %d\n" % (name.encode(), len(output))
    return into, told


def main():
    into, told = steps()
    if len(sys.argv) == 3:
        for path, text in zip(sys.argv[1:], (into, told)):
            with open(path, "ab") as file:
                file.write(text)
    elif into not in input_of("offices") or told not in told_of("offices"):
        sys.exit("other steps stand in crates/office_cases")


if __name__ == "__main__":
    main()
