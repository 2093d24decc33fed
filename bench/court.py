#!/usr/bin/env python3
"""Inputs of `recount` and `odds`, of offices that alter their tables and of offices that don't, and what must come out.

    court.py STDIN STDOUT        (in this folder)

appends steps of the part `offices` of crates/office_cases to STDIN, and to STDOUT the lines that say what must come
(parts.py writes and puts those of the crate). The records
are those of office.py. What must come is counted here from the definitions: which rows are altered, how many posted
codes a printing has beside a candidate, how far a candidate's total is from the marks that a completion leads to it. Of
each refused input it is known where it was spoiled.
"""
import io
import random
import sys

from elections import random_asks, random_file
from office import Election, Office
from record import Record, coins

import hashlib
import json


class Altered(Office):
    """An office that exchanges the places of entries, and sets places that no mark leads to."""

    def __init__(self, election):
        super().__init__(election)
        self.stuffed = {}

    def exchange(self, race, one, other):
        path = self.election.tables[race].path
        path[one], path[other] = path[other], path[one]

    def places(self, race):
        return super().places(race) | self.stuffed.get(race, set())


class Case:
    """What is handed in about an election: its record, the codes of the sheet, and the openings of each row."""

    def __init__(self, office):
        self.office, self.tables = office, office.election.tables
        out = io.BytesIO()
        office.write(Record(out))
        self.record = out.getvalue().decode().splitlines()
        self.sheet = list(office.election.sheet())
        self.rows = {(t.number, i): [[(q, t.left_keys[i].key(x)), (t.path[q], t.right_keys[i].key(x))] for x, q in enumerate(t.lefts[i])] for t in self.tables for i in t.instances}

    def text(self):
        rows = [row_text(row) for key in sorted(self.rows) for row in self.rows[key]]
        return self.record + ["printing"] + self.sheet + ["completion"] + rows

    # WHAT THE RECORD SAYS

    def posted_sides(self, table, instance, row):
        """The sides of a row that the record opens: 0 is left, 1 is right."""
        office, entry = self.office, table.lefts[instance][row]
        if office.draw == "full" or office.fate(table.ballots[entry // table.candidates]) == "audited":
            return {0, 1}
        key = hashlib.sha256(b"SC2COIN" + bytes.fromhex(office.draw)).digest()
        return {1} if coins(key, table.number, instance, table.entries)[row] else {0}

    def with_posted_halves_alone(self):
        for table in self.tables:
            for instance in table.instances:
                for at, row in enumerate(self.rows[table.number, instance]):
                    sides = self.posted_sides(table, instance, at)
                    self.rows[table.number, instance][at] = [half if side in sides else None for side, half in enumerate(row)]
        return self

    def marked(self, table):
        return {q for ballot in table.ballots for q in self.office.marked(ballot, table.number)}

    def stands_beside(self, table, entry, candidate):
        """Whether the sheet has the entry's code beside the candidate."""
        ballot, election = table.ballots[entry // table.candidates], self.office.election
        line = self.sheet[self.sheet.index("ballot %d %d" % (ballot, election.style[ballot - 1])) + 1 + election.races_of(ballot).index(table.number)]
        return line.split(" ")[2:][candidate] == election.word(table.code(entry))

    # RECOUNT

    def is_altered(self, table, instance, row, marked, places):
        halves, sides, entries = self.rows[table.number, instance][row], self.posted_sides(table, instance, row), table.entries
        unposted = [side for side in (0, 1) if side not in sides]
        for side in unposted:
            if halves[side] is None or halves[side][0] >= entries:
                return True
            pointer = halves[side][0]
            if any(other[side] is not None and other[side][0] == pointer for at, other in enumerate(self.rows[table.number, instance]) if at != row):
                return True
            flag = table.lefts[instance][row] in marked
            if (pointer in (marked if side == 0 else places)) != flag:
                return True
        if not unposted or None in halves:
            return False
        (left, _), (right, _) = halves
        return left < entries and right < entries and left in marked and not self.stands_beside(table, left, right % table.candidates)

    def recount(self):
        for table in self.tables:
            marked, places = self.marked(table), self.office.places(table.number)
            for instance in table.instances:
                found = [x for x in range(table.entries) if self.is_altered(table, instance, x, marked, places)]
                yield "altered %d %d %d" % (table.number, instance, len(found))
                yield from ("row %d %d %d" % (table.number, instance, x) for x in found)
        for table in self.tables:
            marked, places = self.marked(table), self.office.places(table.number)
            for j in range(table.candidates):
                total = sum(s % table.candidates == j for s in places)
                yield "candidate %d %d %d %d" % (table.number, j, total, sum(self.stands_beside(table, q, j) for q in marked))

    # ODDS

    def first_lacking(self, table):
        for instance in table.instances:
            seen = (set(), set())
            for at, halves in enumerate(self.rows[table.number, instance]):
                for side, half in enumerate(halves):
                    if half is None or half[0] >= table.entries or half[0] in seen[side]:
                        return instance, at
                for side, half in enumerate(halves):
                    seen[side].add(half[0])
        return None

    def exponent(self, table):
        marked, places, greatest = self.marked(table), self.office.places(table.number), 0
        for j in range(table.candidates):
            total = sum(s % table.candidates == j for s in places)
            led = [sum(row[0][0] in marked and row[1][0] % table.candidates == j for row in self.rows[table.number, i]) for i in table.instances]
            greatest = max(greatest, min(abs(total - count) for count in led))
        return len(table.instances) * greatest

    def odds(self):
        for table in self.tables:
            lacking = self.first_lacking(table)
            if lacking is not None:
                return 7, ["refused full %d %d %d" % (table.number, *lacking)]
        return 0, ["exponent %d %d" % (table.number, self.exponent(table)) for table in self.tables]


def row_text(row):
    left, right = [None if half is None else "%s %d" % (half[1].hex(), half[0]) for half in row]
    if left and right:
        return "both %s %s" % (left, right)
    return "left " + left if left else "right " + right if right else "none"


# OFFICES

def office_of(plan, seed, marks, draw, audited=()):
    """An office whose ballots have these marks, of which some are audited instead."""
    file = {"plan": plan, "seed": seed, "secrets": ["00" * 16]}
    office = Altered(Election(json.dumps(file)))
    for ballot, chosen in marks.items():
        office.accept({"ask": "scan", "ballot": ballot, "marks": chosen, "station": 0})
    for ballot in audited:
        office.accept({"ask": "audit", "ballot": ballot, "paper": office.election.paper(ballot)})
    office.accept({"ask": "close"})
    office.accept({"ask": "draw", "draw": draw})
    return office


def plan_of(version, instances, races, ballots, styles=None):
    named = [{"name": "race%d" % at, "candidates": "Ada Ben Cy Dan".split()[:count], "votes": 1} for at, count in enumerate(races)]
    styles = styles or [{"name": "All", "races": list(range(len(races)))}]
    return {"version": version, "name": "E", "instances": instances, "races": named, "styles": styles, "runs": [{"style": 0, "ballots": ballots}]}


def vote_moved(version, moved):
    """Marked entries of candidate 0 lead to unused places of candidate 1, in all instances."""
    marks = {ballot: [[0, 0]] for ballot in range(1, 7)}
    office = office_of(plan_of(version, 3, [2], 9), "%064x" % (40 + moved), marks, "0badcafe")
    table = office.election.tables[0]
    for ballot in range(1, moved + 1):
        entry = office.marked(ballot, 0)[0]
        taken = office.places(0)
        other = next(q for q in range(table.entries) if table.path[q] % 2 == 1 and table.path[q] not in taken and q // 2 >= 6 + ballot - 1)
        office.exchange(0, entry, other)
    return Case(office)


def place_stuffed():
    """One more place of candidate 1 is set, and the rows that lead to it are opened left."""
    marks = {ballot: [[0, ballot % 2]] for ballot in range(1, 6)}
    for number in range(2**32):
        office = office_of(plan_of(1, 3, [2], 6), "%064x" % 7, marks, "%08x" % number)
        table = office.election.tables[0]
        place = next(s for s in range(table.entries) if s % 2 == 1 and s not in office.places(0))
        office.stuffed[0] = {place}
        case, entry = Case(office), table.path.index(place)
        if all(case.posted_sides(table, i, table.lefts[i].index(entry)) == {0} for i in table.instances):
            return case


def made_up(number):
    """An office that alters nothing, and whose audits are true."""
    draw = random.Random(number)
    while True:
        file = random_file(draw, number)
        file["plan"]["version"] = 1 + number % 2
        office = Altered(Election(json.dumps(file)))
        for ask in random_asks(draw, office.election):
            if ask["ask"] == "audit":
                ask = dict(ask, paper=office.election.paper(ask["ballot"]))
            office.answer(ask)
        if office.phase == "drawn" and any(not table.ballots for table in office.election.tables) == (number % 3 == 0):
            return Case(office)


# STEPS

def smallest():
    """The smallest record, with its sheet and its two rows."""
    case = Case.__new__(Case)
    with open("../examples/first/first.record") as file:
        record = file.read().splitlines()
    return record, ["ballot 1 0", "codes 0 100 200"], [line for line in record if line.startswith("both ")]


def accepted():
    """Names, inputs, and what `recount` and `odds` say of them."""
    record, sheet, rows = smallest()
    whole = record + ["printing"] + sheet + ["completion"] + rows
    yield "smallest", whole, ["altered 0 0 0", "candidate 0 0 1 1", "candidate 0 1 0 0"], (0, ["exponent 0 0"])
    cases = {"moved-%d-%d" % (version, moved): vote_moved(version, moved) for version in (1, 2) for moved in (0, 1, 2)}
    cases["moved-halves-alone"] = vote_moved(1, 1).with_posted_halves_alone()
    cases["stuffed"] = place_stuffed()
    cases.update(("made-up-%d" % number, made_up(number)) for number in range(6))
    cases["made-up-halves-alone"] = made_up(4).with_posted_halves_alone()
    for name, case in cases.items():
        yield name, case.text(), list(case.recount()), case.odds()


def changed(lines, at, line):
    return lines[:at] + [line] + lines[at + 1 :]


def refused():
    """Names, inputs that are refused, and the refusal of `recount` and of `odds`."""
    marks = {1: [[0, 0]], 2: [[0, 1]], 3: [[0, 0]]}
    office = office_of(plan_of(2, 2, [2], 4), "%064x" % 9, marks, "01", audited=[4])
    case = Case(office)
    whole, size = case.text(), len(case.record)
    word = whole.index("completion")
    rows, table = word + 1, office.election.tables[0]
    last = len(whole) - 1
    yield "empty", [], "no 1 form", 1
    yield "record-first", changed(whole, 0, "scantegrity2 3"), "no 1 form", 1
    yield "record-cut", whole[: size - 1] + whole[size:], "no %d form" % size, 1
    yield "record-seal", changed(whole, size - 1, case.record[-1][:-1] + "x"), "no %d form" % size, 1
    yield "no-printing", whole[:size], "refused printing %d" % (size + 1), 7
    yield "no-sheet", whole[: size + 1], "refused printing %d" % (size + 2), 7
    yield "sheet-first", changed(whole, size + 1, "ballot 2 0"), "refused printing %d" % (size + 2), 7
    yield "sheet-last", changed(whole, word - 1, whole[word - 1] + " 222"), "refused printing %d" % word, 7
    code = whole[size + 2].split(" ")[2]
    yield "codes-equal", changed(whole, size + 2, "codes 0 %s %s" % (code, code)), "refused printing %d" % (size + 3), 7
    yield "sheet-cut", whole[: word - 1], "refused printing %d" % word, 7
    yield "printing-twice", whole[: size + 1] + whole[size:], "refused printing %d" % (size + 2), 7
    # The audited ballot's codes are known, and its rows are opened on both sides.
    codes = whole[word - 1].split(" ")
    turned = changed(whole, word - 1, " ".join(codes[:2] + [codes[3], codes[2]]))
    first = min((i, x) for i in table.instances for x, q in enumerate(table.lefts[i]) if table.ballots[q // 2] == 4)
    yield "turned", turned, "refused stand 0 %d %d" % first, 7
    yield "turned-and-cut", turned[:rows], "refused stand 0 %d %d" % first, 7
    yield "completion-word", changed(whole, word, "complete"), "refused completion %d" % (word + 1), 7
    yield "no-completion", whole[:word], "refused completion %d" % (word + 1), 7
    yield "row-first", changed(whole, rows, "nothing"), "refused completion %d" % (rows + 1), 7
    yield "row-last", changed(whole, last, whole[last] + " "), "refused completion %d" % (last + 1), 7
    yield "row-missing", whole[:last], "refused completion %d" % (last + 1), 7
    yield "row-too-many", whole + ["none"], "refused completion %d" % (last + 2), 7
    # A key that is another one.
    worse = lambda line: line[:-1] + ("0" if line[-1] != "0" else "1")
    yield "opening-first", changed(whole, rows, worse(whole[rows])), "refused opening 0 0 0", 7
    yield "opening-last", changed(whole, last, worse(whole[last])), "refused opening 0 1 7", 7
    yield "posted-first", changed(whole, rows, "none"), "refused posted 0 0 0", 7
    yield "posted-last", changed(whole, last, "none"), "refused posted 0 1 7", 7
    yield "posted-then-opening", changed(changed(whole, rows, "none"), last, worse(whole[last])), "refused posted 0 0 0", 7
    yield "opening-then-posted", changed(changed(whole, rows, worse(whole[rows])), last, "none"), "refused opening 0 0 0", 7
    yield "opening-and-form", changed(changed(whole, rows, worse(whole[rows])), last, "x"), "refused completion %d" % (last + 1), 7
    record, sheet, both = smallest()
    yield "smallest-none-twice", record + ["printing"] + sheet + ["completion", "none", "none"], "refused posted 0 0 0", 7


def text_of(lines):
    return "".join(line + "\n" for line in lines)


def steps():
    for name, given, found, (status, odds) in accepted():
        yield "court-" + name, "recount", text_of(given), text_of(found), 0
        yield "court-" + name, "odds", text_of(given), text_of(odds), status
    for name, given, refusal, status in refused():
        for word in ("recount", "odds"):
            yield "court-" + name, word, text_of(given), refusal + "\n", status


def main():
    with open(sys.argv[1], "ab") as into, open(sys.argv[2], "ab") as told:
        for name, word, given, wanted, status in steps():
            given, wanted = given.encode(), wanted.encode()
            into.write(b"%s %s %d %d %d\n" % (name.encode(), word.encode(), len(given), len(wanted), status) + given + wanted)
            told.write(b"%s %s %d %d\n" % (name.encode(), word.encode(), status, len(wanted)))


if __name__ == "__main__":
    main()
