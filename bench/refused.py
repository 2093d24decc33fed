#!/usr/bin/env python3
"""Writes a stream of records that end with a line that may not stand there, one for each rule of the form.

    refused.py STREAM REPORTS

STREAM gets each record behind a line with its name and the number of its bytes, and REPORTS what an audit says of it:
`no N form`, with the number of the last line. The part `records` of crates/cases audits such streams.
"""
import io
import random
import re
import sys

import record as made

RACES, ALL, TOWN = 2, 3, 1


def whole_record(version):
    """The lines of a good record: two races, two styles, all kinds of blocks, a public draw and two disputes."""
    draw = random.Random(7)
    races = [made.Race(draw, 0, ALL + TOWN, 2, 1, 1000), made.Race(draw, 1, ALL, 2, 1, 1000)]
    out = io.BytesIO()
    record = made.Record(out)
    record.line("scantegrity2 %d" % version)
    for line in ["election E", "instances 1", "race Mayor 2 1", "cand Ada", "cand Ben", "race Clerk 2 1", "cand Cy"]:
        record.line(line)
    for line in ["cand Dan", "style All 0 1", "style Town 0", "ballots 0 3", "ballots 1 1"]:
        record.line(line)
    made.write_commitments(record, races, 1)
    code = lambda race, ballot, column: record.line(races[race].code_line(version, ballot, column))
    record.line("cast 1")
    code(0, 1, 0)
    record.line("over 1")
    record.line("audited 2")
    for race in races:
        record.line("paper %d %s" % (race.number, race.paper(version, 2)))
    for race in range(RACES):
        for column in range(2):
            code(race, 2, column)
    record.line("voided 3" if version == 2 else "spoiled 3")
    record.line("cast 4")
    races[0].marked.add(0)
    made.write_results(record, races, 1)
    asked = type("Asked", (), {"draw": "00ff", "instances": 1, "audited": 0})
    public = made.hashlib.sha256(b"SC2COIN" + bytes.fromhex(asked.draw)).digest()
    record.line("draw " + asked.draw)
    for race in races:
        sides = made.coins(public, race.number, 0, race.entries)
        for row, left in enumerate(race.lefts[0]):
            left_text = "%s %d" % (race.left_keys[0][row].hex(), left)
            right_text = "%s %d" % (race.right_keys[0][row].hex(), race.rights[0][row])
            if left // 2 == 1:
                record.line("both %s %s" % (left_text, right_text))
            else:
                record.line("right " + right_text if sides[row] else "left " + left_text)
    record.seal(3)
    for word in ["unposted", "absent"]:
        claimed = races[0].codes[1] if word == "unposted" else next(c for c in range(1000) if c not in races[0].codes)
        record.line("dispute 1 0 %s %s" % (made.code_word(version, claimed), word))
        code(0, 1, 0)
        code(0, 1, 1)
    return out.getvalue().splitlines(keepends=True)


def at(lines, start, nth=0):
    """The number, from 0, of the nth line that begins so."""
    return [number for number, line in enumerate(lines) if line.startswith(start.encode())][nth]


def cases(lines, version):
    """For each rule a name, and the number of a line with what stands in its place."""
    sign = 2 if version == 2 else 1
    seen = set()
    for number, line in enumerate(lines):
        words = line[:-1].split(b" ")
        for place, word in enumerate(words[1:], 1):
            is_code = place > {b"paper": 1, b"code": 2, b"dispute": 2}.get(words[0], len(words))
            is_bits = words[0] in (b"flags", b"places") and place == len(words) - 1
            if re.fullmatch(rb"0|[1-9][0-9]{0,9}", word) and words[0] != b"draw" and not is_code and not is_bits:
                if (words[0], place) not in seen:
                    seen.add((words[0], place))
                    changed = words[:place] + [b"0" + word] + words[place + 1 :]
                    yield "zero-%s-%d" % (words[0].decode(), place), number, b" ".join(changed) + b"\n"
    cast, codes = at(lines, "cast 1"), at(lines, "code 0 0")
    yield "two-spaces", cast, b"cast  1\n"
    yield "space-behind", cast, b"cast 1 \n"
    yield "space-before", cast, b" cast 1\n"
    yield "tab", cast, b"cast\t1\n"
    yield "cr", cast, b"cast 1\r\n"
    yield "no-line-feed", cast, b"cast 1"
    yield "no-word-behind", cast, b"cast\n"
    yield "word-too-many", cast, b"cast 1 1\n"
    yield "other-form", cast, b"Cast 1\n"
    yield "empty-line", cast, b"\n"
    yield "longest-line", cast, b"cast 1" + b" " * (16384 - 7) + b"\n"
    yield "line-too-long", cast, b"x" * 16384 + b"\n"
    yield "number-of-33-bits", cast, b"cast 4294967297\n"
    yield "sign", cast, b"cast +1\n"
    yield "version", 0, b"scantegrity2 3\n"
    yield "name-of-65", 1, b"election " + b"e" * 65 + b"\n"
    yield "name-with-space", 1, b"election E F\n"
    yield "name-of-no-byte", 1, b"election \n"
    yield "name-past-ascii", 1, b"election \xc3\xa9\n"
    yield "no-instance", 2, b"instances 0\n"
    yield "instances-17", 2, b"instances 17\n"
    yield "one-candidate", 3, b"race Mayor 1 1\n"
    yield "candidates-17", 3, b"race Mayor 17 1\n"
    yield "no-vote", 3, b"race Mayor 2 0\n"
    yield "votes-past-candidates", 3, b"race Mayor 2 3\n"
    yield "style-before-race", 3, b"style All 0\n"
    yield "candidate-twice", 5, b"cand Ada\n"
    yield "candidate-missing", 5, b"race Clerk 2 1\n"
    yield "candidate-too-many", 6, b"cand Eve\n"
    yield "race-twice", 6, b"race Mayor 2 1\n"
    style = at(lines, "style")
    yield "style-without-race", style, b"style All\n"
    yield "style-of-later-race", style, b"style All 0 2\n"
    yield "style-races-fall", style, b"style All 1 0\n"
    yield "style-race-twice", style, b"style All 0 0\n"
    yield "style-twice", style + 1, b"style All 0\n"
    run = at(lines, "ballots")
    yield "run-of-no-style", run, b"ballots 2 3\n"
    yield "run-of-no-ballot", run, b"ballots 0 0\n"
    yield "ballots-past-20000", run, b"ballots 1 20001\n"
    yield "ballots-past-20000-in-two", run + 1, b"ballots 1 19998\n"
    yield "rows-past-200000", 2, b"instances 16\n" + b"".join(lines[3:run]) + b"ballots 1 6251\n"
    yield "plan-behind-commitments", run + 3, b"ballots 1 1\n"
    yield "commitment-of-other-race", run + 2, b"code-commit 1" + lines[run + 2][13:]
    yield "upper-case-hex", run + 2, lines[run + 2][:14] + lines[run + 2][14:].upper()
    yield "digest-short", run + 2, lines[run + 2][:-2] + b"\n"
    yield "rows-before-entries", run + 3, lines[at(lines, "row-commit")]
    yield "row-of-other-instance", at(lines, "row-commit"), b"row-commit 0 1" + lines[at(lines, "row-commit")][14:]
    yield "seal-of-next-section", at(lines, "seal 1"), lines[at(lines, "seal 1")].replace(b"seal 1", b"seal 2")
    yield "results-before-seal", at(lines, "seal 1"), lines[at(lines, "flags")]
    yield "ballot-none", cast, b"cast 0\n"
    yield "ballot-past-plan", cast, b"cast 5\n"
    yield "ballots-fall", at(lines, "audited"), b"audited 1\n"
    yield "key-short", codes, lines[codes].replace(b" 0 0 ", b" 0 0 0", 1)[:-1] + b"\n"
    yield "code-of-other-version", codes, lines[codes][:-4] + (b"PRJ\n" if sign == 1 else b"100\n")
    yield "column-past-candidates", codes, lines[codes].replace(b"code 0 0", b"code 0 2")
    yield "columns-fall", codes, lines[at(lines, "dispute") + 2] + lines[codes]
    yield "column-twice", codes + 1, lines[codes]
    yield "races-fall", codes + 2, lines[codes].replace(b"code 0 0", b"code 0 1")
    yield "code-behind-over", codes + 2, lines[codes].replace(b"code 0 0", b"code 1 0")
    yield "over-twice", codes + 2, b"over 1\n"
    yield "over-of-no-race", codes + 1, b"over 2\n"
    last = at(lines, "cast 4")
    yield "race-not-of-style", last + 1, lines[codes].replace(b"code 0 0", b"code 1 0")
    yield "over-not-of-style", last + 1, b"over 1\n"
    yield "code-of-spoiled", last, lines[codes]
    paper = at(lines, "paper")
    yield "paper-missing", paper + 1, lines[paper + 2]
    yield "papers-fall", paper, lines[paper + 1]
    yield "paper-short", paper, lines[paper][:-5] + b"\n"
    yield "paper-twice", paper + 1, lines[paper]
    yield "audited-block-short", paper + 5, lines[last - 1]
    yield "audited-codes-fall", paper + 2, lines[paper + 3]
    if version == 1:
        yield "voided-in-version-1", last - 1, b"voided 3\n"
    yield "ballot-behind-results", at(lines, "flags") + 1, b"cast 4\n"
    flags = at(lines, "flags")
    yield "flag-missing", flags, lines[flags][:-2] + b"\n"
    yield "flag-too-many", flags, lines[flags][:-1] + b"0\n"
    yield "flag-of-2", flags, lines[flags][:-2] + b"2\n"
    yield "places-before-flags", flags, lines[at(lines, "places")]
    yield "totals-of-other-candidate", at(lines, "total"), b"total 0 1 0\n"
    yield "draw-before-seal", at(lines, "seal 2"), b"draw 00ff\n"
    yield "draw-of-half-byte", at(lines, "draw"), b"draw 00f\n"
    yield "draw-of-no-byte", at(lines, "draw"), b"draw \n"
    yield "draw-upper-case", at(lines, "draw"), b"draw 00FF\n"
    yield "row-missing", at(lines, "seal 3") - 1, lines[at(lines, "seal 3")]
    yield "row-too-many", at(lines, "seal 3"), lines[at(lines, "seal 3") - 1]
    dispute = at(lines, "dispute")
    yield "dispute-before-seal", dispute - 1, lines[dispute]
    yield "dispute-past-plan", dispute, lines[dispute].replace(b"dispute 1", b"dispute 5")
    yield "dispute-of-no-ballot", dispute, lines[dispute].replace(b"dispute 1", b"dispute 0")
    yield "dispute-not-of-style", dispute, lines[dispute].replace(b"dispute 1 0", b"dispute 4 1")
    yield "dispute-of-no-word", dispute, lines[dispute].replace(b"unposted", b"there")
    yield "dispute-code-missing", dispute + 2, lines[dispute]
    yield "dispute-of-other-race", dispute + 1, lines[dispute + 1].replace(b"code 0", b"code 1")
    yield "dispute-columns-fall", dispute + 1, lines[dispute + 2]
    yield "dispute-code-too-many", dispute + 3, lines[dispute + 2]
    yield "ballot-behind-disputes", len(lines), b"cast 4\n"


def main():
    stream, reports = open(sys.argv[1], "wb"), open(sys.argv[2], "w")
    for version in (1, 2):
        lines = whole_record(version)
        whole = b"".join(lines)
        stream.write(b"good-%d %d\n" % (version, len(whole)) + whole)
        totals = [line.decode() for line in lines if line.startswith(b"total")]
        reports.write("good-%d 0\nyes\n%s" % (version, "".join(totals)))
        for name, number, text in cases(lines, version):
            bad = b"".join(lines[:number]) + text
            stream.write(("v%d-%s %d\n" % (version, name, len(bad))).encode() + bad)
            reports.write("v%d-%s 1\nno %d form\n" % (version, name, number + len(text.splitlines()[:-1] or []) + 1))


if __name__ == "__main__":
    main()
