#!/usr/bin/env python3
"""Input of the part `devices` of crates/office_cases, and what must come of `scans`, `openings`, `recount`, `odds` and
`county` there.

    devices.py STDIN        (in this folder)

STDIN has the election file, an empty line and the asks. Behind them this writes three more parts anew, each after an empty
line: a scanner's file, what a court is handed behind the record, and a record of another town with the same races. On
standard output it writes the lines that the program must print of the four commands. They are counted from an office in
Python and from the rules: a read gives at most 64 bytes, each line is one put, and one call fails a run.
"""
import copy
import io
import json
import sys

from county import joined
from court import Altered, Case, text_of
from cut_scans import HEADER, answer, line_of
from office import Election, Record, answer_line

PIECE = 64


def scanner_file(election):
    """Scans of both stations: one comes twice, and one is of a ballot that was cast."""
    one, other = election.secrets
    records = [
        (0, one, 1, 1, "0:0 1:0 1:1"),
        (0, one, 2, 2, "0:1 1:2"),
        (0, one, 2, 2, "0:1 1:2"),
        (1, other, 1, 4, "0:2"),
        (1, other, 2, 1, "0:1"),
        (1, other, 3, 5, ""),
        (0, one, 3, 7, "1:3"),
    ]
    return [HEADER] + [[str(word) for word in record] for record in records]


def county_file(election):
    """The election of another town: fewer ballots, another seed."""
    file = copy.deepcopy(election)
    file["plan"]["name"], file["plan"]["instances"], file["seed"] = "Town-2026", 1, "%064x" % 1
    file["plan"]["runs"] = [{"style": 0, "ballots": 3}]
    return file


def rows_of(office):
    """How many rows a keeper has of an office: the setup, the acts, and a ballot or a stage for each act."""
    return 1 + 2 * len(office.done)


def scanned(office, records, failing):
    """The replies to the records where this commit fails, and how many commits there were."""
    replies, commits = [], 0
    for record in records:
        before = copy.deepcopy(office.__dict__)
        acts = len(office.done)
        reply = answer(office, record)
        if len(office.done) > acts:
            if commits == failing:
                office.__dict__.update(before)
                reply = {"error": "keeper", "status": 503}
            commits += 1
        replies.append(line_of(reply))
    return replies, commits


def line(device, runs, status, fronts, lost, rows, ended=None):
    ended = runs if ended is None else ended
    return "  %s: %d runs, %d with %d, %d fronts, %d lost, %d rows" % (device, runs, ended, status, fronts, lost, rows)


def reads(given):
    return -(-len(given) // PIECE) + 1


def tell_scans(election, table, given):
    begun = Altered(election)
    office = copy.deepcopy(begun)
    replies, commits = scanned(office, table[1:], None)
    rows = rows_of(office)
    yield "scans: 0, %d bytes, %d rows" % (len("".join(replies)), rows)
    yield line("read", reads(given), 3, reads(given), 0, reads(given) * rows_of(begun))
    kept = 0
    for count in range(1, len(table)):
        part = copy.deepcopy(begun)
        scanned(part, table[1 : count + 1], None)
        kept += rows_of(part)
    yield line("put", len(replies), 4, len(replies), 0, kept)
    # The first call loads the rows.
    fronts, lost, kept = 1, 0, rows_of(begun)
    for failing in range(commits):
        part = copy.deepcopy(begun)
        told, _ = scanned(part, table[1:], failing)
        fronts += told == replies[: len(told)]
        lost += sum(it.endswith('"status":503}\n') for it in told)
        kept += rows_of(part)
    yield line("keeper", commits + 1, 5, fronts, lost, kept, ended=1)


def tell_openings(text, rows):
    """What a court is handed, from the line `completion` on: each line is one put."""
    lines = text[text.index("completion") :]
    yield "openings: 0, %d bytes, %d rows" % (len(text_of(lines)), rows)
    yield line("read", 0, 3, 0, 0, 0)
    yield line("put", len(lines), 4, len(lines), 0, len(lines) * rows)
    yield line("keeper", 1, 5, 1, 0, rows)


def tell_reading(name, given, wanted, rows):
    """A command that reads a text and opens no office: each line of what is wanted is one put."""
    yield "%s: 0, %d bytes, %d rows" % (name, len(text_of(wanted)), rows)
    yield line("read", reads(given), 3, reads(given), 0, reads(given) * rows)
    yield line("put", len(wanted), 4, len(wanted), 0, len(wanted) * rows)
    yield line("keeper", 0, 5, 0, 0, 0)


def total_lines(parts):
    """The lines of a county's sums."""
    sums = {}
    for part in parts:
        for words in (it.split(" ") for it in part if it.startswith("total ")):
            key = words[1], words[2]
            sums[key] = sums.get(key, 0) + int(words[3])
    return ["yes"] + ["total %s %s %d" % (*key, count) for key, count in sums.items()]


def whole_case(file, asks):
    office = Altered(Election(file))
    for ask in asks:
        answer_line(office, ask)
    return Case(office)


def closed(file):
    """The record of a town whose ballots were not cast."""
    secret = file["secrets"][0]
    asks = [{"ask": "close", "station": 0, "secret": secret, "ref": 1}, {"ask": "draw", "station": 0, "secret": secret, "ref": 2, "draw": "07"}]
    return whole_case(json.dumps(file), [json.dumps(ask).encode() for ask in asks])


def main():
    with open(sys.argv[1], encoding="utf-8", newline="") as it:
        file, asks = it.read().split("\n\n")[:2]
    election = Election(file)
    table = scanner_file(election)
    scans = "".join(",".join(record) + "\n" for record in table)
    case = whole_case(file, asks.encode().splitlines())
    text = text_of(case.text())
    record = text_of(case.record)
    other = closed(county_file(json.loads(file)))
    county = text_of(joined([case.record, other.record]))
    parts = [file, asks.rstrip("\n"), scans.rstrip("\n"), text[len(record) :].rstrip("\n"), text_of(other.record)]
    with open(sys.argv[1], "w", encoding="utf-8", newline="") as it:
        it.write("\n\n".join(parts))
    rows = rows_of(case.office)
    status, odds = case.odds()
    assert status == 0
    sums = total_lines([case.record, other.record])
    for told in tell_scans(election, table, scans):
        print(told)
    for told in tell_openings(case.text(), rows):
        print(told)
    for told in tell_reading("recount", text, list(case.recount()), rows):
        print(told)
    for told in tell_reading("odds", text, odds, rows):
        print(told)
    for told in tell_reading("county", county, sums, rows):
        print(told)


if __name__ == "__main__":
    main()
