#!/usr/bin/env python3
"""Steps for the part `offices` of crates/office_cases: a scanner's file that is cut at every 97th byte, and then comes again whole.

    cut_scans.py NAME ELECTION.json FILE.csv STDIN STDOUT

appends to STDIN, for each cut, the steps of an election of its own (no rows, `init`, `scans` of the cut file, `scans` of
the whole one, `do` of the close and `record`) with what must come, and to STDOUT the lines that say so (parts.py writes and puts those
of the crate). What must come
is from office.py, an office in Python, and from Python's module csv.
"""
import csv
import io
import json
import re
import sys

from office import Election, Office, Record

HEADER = ["station", "secret", "ref", "ballot", "marks"]
EVERY = 97
NUMBER = "(?:0|[1-9][0-9]{0,9})"
MARKS = re.compile("(?:%s:%s(?: %s:%s)*)?" % ((NUMBER,) * 4))


def number(text):
    """The number that a canonical decimal of 32 bits spells."""
    if re.fullmatch(NUMBER, text) is None or int(text) >= 2**32:
        raise ValueError(text)
    return int(text)


def scan_of(record):
    """The ask that a record is."""
    station, secret, ref, ballot, marks = record
    if re.fullmatch("[0-9a-f]{32}", secret) is None or MARKS.fullmatch(marks) is None:
        raise ValueError(record)
    pairs = [[number(part) for part in word.split(":")] for word in marks.split(" ") if word]
    return {"ask": "scan", "station": number(station), "secret": secret, "ref": number(ref), "ballot": number(ballot), "marks": pairs}


def line_of(reply):
    return json.dumps(reply, separators=(",", ":"), sort_keys=True) + "\n"


def answer(office, record):
    try:
        ask = scan_of(record)
    except ValueError:
        return {"error": "shape", "status": 400}
    return office.answer(ask)


def scans(office, file):
    """The status and the output of `scans`."""
    records = [record for record in csv.reader(io.StringIO(file, newline="")) if record]
    if not records or records[0] != HEADER:
        return 7, "refused header\n"
    return 0, "".join(line_of(answer(office, record)) for record in records[1:])


def close(office):
    """The line of an ask that closes the voting, and its reply."""
    ask = {"ask": "close", "station": 0, "secret": office.election.secrets[0], "ref": 1}
    return json.dumps(ask) + "\n", line_of(office.answer(ask))


def steps(election_text, file, cut):
    """The words, the inputs, the outputs and the statuses of an election's steps."""
    office = Office(Election(election_text))
    yield "rows", "", "", 0
    yield "init", election_text, "begun\n", 0
    for part in (file[:cut], file):
        status, output = scans(office, part)
        yield "scans", part, output, status
    ask, reply = close(office)
    yield "do", ask, reply, 0
    posted = io.BytesIO()
    office.write(Record(posted))
    yield "record", "", posted.getvalue().decode(), 0


def main():
    name, election, file, stdin, stdout = sys.argv[1:]
    with open(election, encoding="utf-8", newline="") as it:
        election = it.read()
    with open(file, encoding="utf-8", newline="") as it:
        file = it.read()
    with open(stdin, "ab") as into, open(stdout, "ab") as told:
        for cut in range(EVERY, len(file), EVERY):
            for word, given, wanted, status in steps(election, file, cut):
                given, wanted = given.encode(), wanted.encode()
                into.write(b"%s-%d %s %d %d %d\n" % (name.encode(), cut, word.encode(), len(given), len(wanted), status) + given + wanted)
                told.write(b"%s-%d %s %d %d\n" % (name.encode(), cut, word.encode(), status, len(wanted)))


if __name__ == "__main__":
    main()
