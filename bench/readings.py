#!/usr/bin/env python3
"""Other readings of the rules, each an edit of examples/auditor.py: the records of vectors/ must tell each of them apart.

    readings.py           says for each reading how many records tell it apart, and the first of them; status 1 where none does
"""
import io
import os
import sys

HERE = os.path.dirname(os.path.abspath(__file__))
MOST = 1 << 20  # the longest record takes too long, and tells the number of disputes alone
RECORDS = os.path.join(HERE, "..", "vectors", "records")

READINGS = [
    # WORDS AND LINES
    ("the last line may lack its line feed", 'if not line.endswith(b"\\n") or', 'line += b"" if line.endswith(b"\\n") or not line else b"\\n"\n    if'),
    ("words stand between any spaces", '.split(" ")\n    return', ".split()\n    return"),
    ("a line may end with CR LF", '.split(" ")\n    return', '.rstrip("\\r").split(" ")\n    return'),
    ("a number may have leading zeros", '"0|[1-9][0-9]{0,9}"', '"[0-9]{1,10}"'),
    ("numbers have 64 bits", "< 2**32", "< 2**64"),
    ("digests and keys may have upper-case digits", "[0-9a-f]", "[0-9a-fA-F]"),
    ("a name may have any sign but a space", '"[!-~]{1,64}"', '"[^ ]{1,64}"'),
    ("a name may be longer", '"[!-~]{1,64}"', '"[!-~]+"'),
    ("a code of version 2 may have any letter and digit", '"23456789ABCDEFGHJKLMNPQRSTUVWXYZ"}', '"23456789ABCDEFGHJKLMNPQRSTUVWXYZ01IO"}'),
    ("a record that is cut is bad at its last line", 'f"no {lines.number} {kind}\\n"', 'f"no {lines.number - (not lines.line)} {kind}\\n"'),
    # THE PLAN
    ("ballots have no limit but that of rows", "    demand(1 <= count <= 20000 - len(record.ballots))\n", "    demand(count >= 1)\n"),
    ("rows are those of one instance", "sum(record.instances * race.n()", "sum(race.n()"),
    ("rows are ballot rows", "record.instances * race.n()", "record.instances * race.ballot_rows"),
    ("races and styles differ in names", "demand(title not in [other for other, _ in record.styles])", "demand(title not in [other for other, _ in record.styles] + [race.title for race in record.races])"),
    ("candidates of all races differ", "demand(candidate not in race.candidates)", "demand(candidate not in sum([other.candidates for other in record.races], race.candidates))"),
    ("each race is in a style with ballots", "def read_commitments(lines, record):\n", "def read_commitments(lines, record):\n    lines.next_is() or all(race.n() for race in record.races) or demand(lines.take() and False)\n"),
    # BLOCKS
    ("`over` behind a code is bad in form", 'demand(not shown, "rule")', "demand(not shown)"),
    ("votes are counted in all blocks", 'demand(race.codes.setdefault(entry, code) == code, "rule")', 'demand(race.codes.setdefault(entry, code) == code, "rule")\n    demand(ballot.fate != "cast" or len({*ballot.shown.get(r, {}), c}) <= race.votes, "rule")'),
    ("equal codes are looked for in one block alone", "    race, row = record.races[r], ballot.rows[r]\n    entry", "    race, row = record.races[r], ballot.rows[r]\n    c == 0 and race.holders.clear()\n    entry"),
    ("codes of a ballot differ in all its races", "race.holders.setdefault((row, code), entry) == entry", "record.races[0].holders.setdefault((ballot, code), (r, entry)) == (r, entry)"),
    ("codes of a race differ on all ballots", "setdefault((row, code), entry)", "setdefault(code, entry)"),
    ("opening comes behind rule", '            entry = judge_code(record, ballot, r, c, secret, code)\n            demand(len(shown) < record.races[r].votes, "rule")', '            demand(len(shown) < record.races[r].votes, "rule")\n            entry = judge_code(record, ballot, r, c, secret, code)'),
    ("an entry of an audited ballot is marked", "            record.races[r].audited.add(entry)\n", "            record.races[r].audited.add(entry)\n            record.races[r].marked.add(entry)\n"),
    # RESULTS
    ("a total is the number of marked codes' places", 'demand(total == race.places[j :: race.k].count("1"), "total")', 'demand(total == race.places[j :: race.k].count("1") and len(race.marked) == race.places.count("1"), "total")'),
    # THE DRAW
    ("the coin 1 opens the left side", "(left or coin == 1) and (right or coin == 0)", "(left or coin == 0) and (right or coin == 1)"),
    ("the key is of the digits", "bytes.fromhex(public)).digest()", "public.encode()).digest()"),
    ("the stream's high word comes first", 'struct.pack("<QQ", counter, stream)', 'struct.pack("<QII", counter, stream >> 32, stream % 2**32)'),
    ("the stream is I times 2^32 and R", "r * 2**32 + i", "i * 2**32 + r"),
    ("the nonce has 96 bits", 'struct.pack("<QQ", counter, stream)', 'struct.pack("<IIQ", counter, 0, stream % 2**32 << 32 | stream >> 32)'),
    ("the first block has the number 1", "    counter = 0\n    while True", "    counter = 1\n    while True"),
    ("words stand before the addition", "[(a + b) & 0xFFFFFFFF for a, b in zip(x, start)]", "x"),
    ("the coin is the highest bit", "yield word & 1", "yield word >> 31"),
    # ROWS
    ("side comes before opening", "        self.opening(row, left, right)\n        self.side(left, right)\n", "        self.side(left, right)\n        self.opening(row, left, right)\n"),
    ("pointer comes before side", "        self.side(left, right)\n        self.pointer(entry, self.lefts)\n", "        self.pointer(entry, self.lefts)\n        self.side(left, right)\n"),
    ("path comes before flag", "        self.flag(row, entry, place)\n        if is_both:\n            self.path(entry, place)\n", "        if is_both:\n            self.path(entry, place)\n        self.flag(row, entry, place)\n"),
    ("print comes before path", "        if is_both:\n            self.path(entry, place)\n        self.prints(row, entry, place, is_both)\n", "        self.prints(row, entry, place, is_both)\n        if is_both:\n            self.path(entry, place)\n"),
    ("pointers of both sides are looked for together", "self.pointer(place, self.rights)", "self.pointer(place, self.lefts)"),
    ("pointers of rows opened on both sides are not looked for", "            earlier.add(pointer)", "            pointer in self.race.audited or earlier.add(pointer)"),
    ("pointers of all instances differ", "self.lefts, self.rights = set(), set()", 'self.lefts, self.rights = self.race.__dict__.setdefault("seen", (set(), set()))'),
    ("a flag is of the entry alone", "        if place is not None:\n            demand(is_flagged", "        if place is not None and entry is None:\n            demand(is_flagged"),
    ("a flag is not judged by the place", "        if place is not None:\n            demand(is_flagged", "        if False:\n            demand(is_flagged"),
    ("paths are those of one instance", "        self.both_count = 0  #", "        self.race.led, self.race.reached = {}, {}\n        self.both_count = 0  #"),
    ("a path ends at a candidate", 'demand(race.led.setdefault(entry, place) == place, "path")', 'demand(race.led.setdefault(entry, place % race.k) == place % race.k, "path")'),
    ("no two entries lead to one place in any instances", 'demand(race.led.setdefault(entry, place) == place, "path")', 'demand(race.led.setdefault(entry, place) == place and list(race.led.values()).count(place) == 1, "path")'),
    ("rows opened on both sides are counted in the last instance alone", "            if row + 1 == race.n():", "            if row + 1 == race.n() and self.i + 1 == len(race.flags):"),
    ("with a full draw rows are counted too", "        if not self.is_full:\n            demand(entry is None", "        if True:\n            demand(entry is None"),
    ("a paper is compared in a public draw alone", "if is_both and entry in race.audited:", "if is_both and entry in race.audited and not self.is_full:"),
    ("a paper is compared in a full draw alone", "if is_both and entry in race.audited:", "if is_both and entry in race.audited and self.is_full:"),
    ("a paper is by column", "paper[place % race.k]", "paper[entry % race.k]"),
    # DISPUTES
    ("a dispute is of a used ballot", "    ballot = record.ballots[b - 1]\n    codes", '    ballot = record.ballots[b - 1]\n    demand(ballot.fate != "unused")\n    codes'),
    ("a dispute stands once", "    ballot.disputes.append((r, claimed, told))", "    demand((r, claimed, told) not in ballot.disputes)\n    ballot.disputes.append((r, claimed, told))"),
    ("disputes stand in the order of ballots", "    ballot.disputes.append((r, claimed, told))", "    demand(not any(other.disputes for other in record.ballots[b:]))\n    ballot.disputes.append((r, claimed, told))"),
    ("a code of an audited ballot is posted", ' if ballot.fate == "cast" else []', ""),
    ("a code of any race of the ballot is posted", "ballot.shown.get(r, {}).values() if", "[code for codes in ballot.shown.values() for code in codes.values()] if"),
    ("a posted code must be disputed with unposted ones alone", "    demand(told == right", '    demand(told != "absent" or not posted, "dispute")\n    demand(told == right'),
]


def records():
    names = [name[: -len(".record")] for name in os.listdir(RECORDS) if name.endswith(".record")]
    for name in sorted(names, key=lambda name: os.path.getsize(os.path.join(RECORDS, name + ".record"))):
        with open(os.path.join(RECORDS, name + ".record"), "rb") as record:
            with open(os.path.join(RECORDS, name + ".report"), encoding="ascii") as report:
                yield name, record.read(), report.read()


def report_of(auditor, text):
    """The report, or the name of the error with which the auditor ends."""
    try:
        return auditor["audit"](io.BytesIO(text))[0]
    except Exception as error:
        return type(error).__name__


def main():
    with open(os.path.join(HERE, "..", "examples", "auditor.py"), encoding="utf-8") as page:
        source = page.read()
    kept, missed = list(records()), 0
    for what, old, new in [("the auditor as it is", "", "")] + READINGS:
        if old not in source:
            raise ValueError("no such text: " + old)
        auditor = {"__name__": "reading"}
        exec(compile(source.replace(old, new) if old else source, what, "exec"), auditor)
        told = [name for name, text, report in kept if len(text) < MOST and report_of(auditor, text) != report]
        print("%4d  %s%s" % (len(told), what, "  (%s)" % told[0] if told else ""))
        missed += bool(told) != bool(old)
    print("%d readings, %d told by no record" % (len(READINGS), missed))
    sys.exit(1 if missed else 0)


if __name__ == "__main__":
    main()
