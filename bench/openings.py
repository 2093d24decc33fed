#!/usr/bin/env python3
"""Steps for the part `offices` of crates/office_cases: what a court is handed, `openings`, at each stage of offices that are made up.

    openings.py STDIN STDOUT        (in this folder)

appends the steps to STDIN, and to STDOUT the lines that say what must come (parts.py writes and puts those of the crate). Each office is set up and asked, and before
its setup, while it votes, behind its close and behind its draw `openings` is run. The openings are those of office.py,
another office. Behind the draw the record, the line `printing`, the sheet and the openings are put behind one another and
recounted: no row may be altered. Then come rows that are no office's.
"""
import json
import random
import sys

from court import Altered, Case, text_of
from elections import random_asks, random_file
from office import Election, answer_line


def step(name, word, given, wanted, status):
    return name, word, given.encode(), wanted.encode(), status


def asked(name, office, asks):
    """The step that asks this, with the replies of the other office."""
    lines = [json.dumps(ask) + "\n" for ask in asks]
    replies = [answer_line(office, line.encode())[1] for line in lines]
    texts = [json.dumps(reply, separators=(",", ":"), sort_keys=True) + "\n" for reply in replies]
    return step(name, "do", "".join(lines), "".join(texts), 0)


def with_true_papers(election, asks):
    return [dict(ask, paper=election.paper(ask["ballot"])) if ask["ask"] == "audit" else ask for ask in asks]


def cut(asks):
    """The asks up to those of the close, those up to the draw, and those from it on."""
    close = next(at for at, ask in enumerate(asks) if ask["ask"] == "close")
    draw = next(at for at, ask in enumerate(asks) if ask["ask"] == "draw")
    return asks[:close], asks[close:draw], asks[draw:]


def steps_of(number):
    draw, name = random.Random(7_000 + number), "openings-%d" % number
    file = random_file(draw, number)
    file["plan"]["version"] = 1 + number % 2
    text = json.dumps(file)
    election = Election(text)
    office = Altered(election)
    voting, closed, drawn = cut(with_true_papers(election, random_asks(draw, election)))
    yield step(name, "rows", "", "", 0)
    yield step(name, "openings", "", "refused empty\n", 7)
    yield step(name, "init", text, "begun\n", 0)
    yield step(name, "openings", "", "refused undrawn\n", 7)
    yield asked(name, office, voting)
    yield step(name, "openings", "", "refused undrawn\n", 7)
    yield asked(name, office, closed)
    yield step(name, "openings", "", "refused undrawn\n", 7)
    yield asked(name, office, drawn)
    openings = ["completion"] + list(election.openings())
    yield step(name, "openings", "", text_of(openings), 0)
    case = Case(office)
    sheet = list(election.sheet())
    yield step(name, "record", "", text_of(case.record), 0)
    yield step(name, "sheet", "", text_of(sheet), 0)
    yield step(name, "recount", text_of(case.record + ["printing"] + sheet + openings), text_of(none_altered(case)), 0)
    yield step(name, "openings", "", text_of(openings), 0)
    yield step(name, "openings+now", "", "", 2)


def none_altered(case):
    """What a recount of an office that altered nothing says: no row, and of each candidate the same two numbers."""
    found = list(case.recount())
    for line in found:
        words = line.split(" ")
        assert words[0] == "altered" and words[3] == "0" or words[0] == "candidate" and words[3] == words[4], line
    return found


def steps():
    for number in range(8):
        yield from steps_of(number)
    yield step("openings-damaged", "rows", "setup 00\n", "", 0)
    yield step("openings-damaged", "openings", "", "damaged 1 1\n", 8)


def main():
    with open(sys.argv[1], "ab") as into, open(sys.argv[2], "ab") as told:
        for name, word, given, wanted, status in steps():
            into.write(b"%s %s %d %d %d\n" % (name.encode(), word.encode(), len(given), len(wanted), status) + given + wanted)
            if word != "rows":
                told.write(b"%s %s %d %d\n" % (name.encode(), word.encode(), status, len(wanted)))


if __name__ == "__main__":
    main()
