#!/usr/bin/env python3
"""Makes vectors/: records with their reports, and asks with their replies, for whoever writes another auditor or a station.

    vectors.py                          makes all files anew
    vectors.py check                    says which files are not as it makes them; status 1 where there are some
    vectors.py stream STREAM REPORTS    writes the records, each after a line with its name in vectors/ and the number of its
                                        bytes, and their reports, as the part `records` of crates/cases reads and writes them

What must be reported is said here, beside what was changed, by the rules of docs/FORMAT.md: no auditor is asked. The
tables, commitments and coins are those of record.py, the codes of the asks' elections those of office.py.
"""
import io
import json
import os
import random
import sys

import office as offices
import record as made

VECTORS = os.path.join(os.path.dirname(os.path.abspath(__file__)), "..", "vectors")
FULL = "full"


class Election:
    """A plan with tables. What stands in the tables may be changed before the lines are made."""

    def __init__(self, version=1, instances=1, races=None, styles=None, runs=None, seed=1):
        self.version, self.instances = version, instances
        self.races = races or [("Mayor", ["Ada", "Ben"], 1)]
        self.styles = styles or [("All", list(range(len(self.races))))]
        self.runs = runs or [(0, 4)]
        self.name = "E"
        self.style = [style for style, count in self.runs for _ in range(count)]
        self.row = [{} for _ in self.style]  # by ballot, from 0: race -> the ballot's row
        rows = [0] * len(self.races)
        for ballot, style in enumerate(self.style):
            for race in self.styles[style][1]:
                self.row[ballot][race] = rows[race]
                rows[race] += 1
        draw = random.Random(seed)
        codes = 1000 if version == 1 else 32768
        self.tables = [
            made.Race(draw, number, rows[number], len(race[1]), instances, codes) for number, race in enumerate(self.races)
        ]

    def word(self, code):
        return made.code_word(self.version, code)

    def entry(self, ballot, race, column):
        return self.row[ballot - 1][race] * self.tables[race].candidates + column

    def column(self, ballot, race, candidate):
        """The column that shows a candidate."""
        shown = self.tables[race].shown
        return next(c for c in range(len(self.races[race][1])) if shown[self.entry(ballot, race, c)] == candidate)

    def code(self, ballot, race, column):
        return self.word(self.tables[race].codes[self.entry(ballot, race, column)])

    def other_code(self, ballot, race):
        """A code that the ballot does not have in the race."""
        mine = [self.code(ballot, race, c) for c in range(len(self.races[race][1]))]
        return next(self.word(code) for code in range(20) if self.word(code) not in mine)

    def code_line(self, ballot, race, column):
        return self.tables[race].code_line(self.version, self.row[ballot - 1][race] + 1, column)

    def codes(self, ballot, race):
        return [self.code_line(ballot, race, column) for column in range(len(self.races[race][1]))]

    def paper_line(self, ballot, race):
        return "paper %d %s" % (race, self.tables[race].paper(self.version, self.row[ballot - 1][race] + 1))

    # THE LINES

    def plan(self):
        yield "scantegrity2 %d" % self.version
        yield "election " + self.name
        yield "instances %d" % self.instances
        for name, candidates, votes in self.races:
            yield "race %s %d %d" % (name, len(candidates), votes)
            yield from ("cand " + candidate for candidate in candidates)
        for name, races in self.styles:
            yield " ".join(["style", name] + [str(race) for race in races])
        for style, count in self.runs:
            yield "ballots %d %d" % (style, count)

    def commitments(self):
        for race in self.tables:
            for entry in range(race.entries):
                digest = made.commitment(b"Q", race.number, 0, entry, race.keys[entry], race.codes[entry])
                yield "code-commit %d %s" % (race.number, digest)
        for race in self.tables:
            for i in range(self.instances):
                for row in range(race.entries):
                    left = made.commitment(b"L", race.number, i, row, race.left_keys[i][row], race.lefts[i][row])
                    right = made.commitment(b"R", race.number, i, row, race.right_keys[i][row], race.rights[i][row])
                    yield "row-commit %d %d %s %s" % (race.number, i, left, right)
        yield "seal 1"

    def block(self, ballot, fate, marks):
        """The block of a ballot: cast, with the candidates marked in each race, or `over`; or of another fate."""
        yield "%s %d" % (fate, ballot)
        if fate == "cast":
            for race, candidates in sorted((marks or {}).items()):
                if candidates == "over":
                    yield "over %d" % race
                    continue
                for column in sorted(self.column(ballot, race, candidate) for candidate in candidates):
                    self.tables[race].marked.add(self.entry(ballot, race, column))
                    yield self.code_line(ballot, race, column)
                for candidate in candidates:
                    self.counts[race][candidate] += 1
        if fate == "audited":
            races = sorted(self.row[ballot - 1])
            for race in races:
                yield self.paper_line(ballot, race)
            for race in races:
                yield from self.codes(ballot, race)

    def results(self):
        for race in self.tables:
            marked = {race.path[entry] for entry in race.marked}
            for i in range(self.instances):
                yield from bit_lines("flags %d %d" % (race.number, i), [q in race.marked for q in race.lefts[i]])
            yield from bit_lines("places %d" % race.number, [s in marked for s in range(race.entries)])
            for candidate in range(race.candidates):
                yield "total %d %d %d" % (race.number, candidate, sum(s % race.candidates == candidate for s in marked))
        yield "seal 2"

    def rows(self, draw, blocks):
        yield "draw " + draw
        audited = [b for b, fate, _ in blocks if fate == "audited"]
        for race in self.tables:
            columns = range(race.candidates)
            both = {self.entry(b, race.number, c) for b in audited if race.number in self.row[b - 1] for c in columns}
            for i in range(self.instances):
                sides = coins(draw, race.number, i, race.entries)
                for row in range(race.entries):
                    left, right = race.openings(i, row)
                    if sides is None or race.lefts[i][row] in both:
                        yield "both %s %s" % (left, right)
                    else:
                        yield "right " + right if sides[row] else "left " + left
        yield "seal 3"

    def dispute(self, ballot, race, code, word):
        return ["dispute %d %d %s %s" % (ballot, race, code, word)] + self.codes(ballot, race)

    def lines(self, blocks, draw=FULL, disputes=()):
        """All lines of a record, each seal without its digest."""
        self.counts = [[0] * len(race[1]) for race in self.races]
        for race in self.tables:
            race.marked.clear()
        found = list(self.plan()) + list(self.commitments())
        for ballot, fate, marks in blocks:
            found += self.block(ballot, fate, marks)
        found += list(self.results()) + list(self.rows(draw, blocks))
        for dispute in disputes:
            found += self.dispute(*dispute)
        return found

    def yes(self):
        return "yes\n" + "".join("total %d %d %d\n" % (r, j, n) for r, row in enumerate(self.counts) for j, n in enumerate(row))


def coins(draw, race, instance, count):
    """Whether each coin opens the right side; none with a full draw."""
    if draw == FULL:
        return None
    key = made.hashlib.sha256(b"SC2COIN" + bytes.fromhex(draw)).digest()
    return made.coins(key, race, instance, count)


def draw_where(holds):
    """The first public bytes, of two, for which something holds."""
    return next("%04x" % number for number in range(65536) if holds("%04x" % number))


def bit_lines(head, bits):
    signs = "".join("1" if bit else "0" for bit in bits)
    return [head + " " + signs[at : at + 64] for at in range(0, len(signs), 64)]


def text_of(lines):
    """The bytes of these lines. A seal that has no digest yet gets the right one."""
    text = bytearray()
    for line in lines:
        if line in ("seal 1", "seal 2", "seal 3"):
            line += " " + made.hashlib.sha256(text).hexdigest()
        text += line.encode("latin-1") + b"\n"
    return bytes(text)


def at(lines, start, nth=0):
    """The number, from 0, of the nth line that begins so."""
    return [number for number, line in enumerate(lines) if line.startswith(start)][nth]


def no(number, kind="form"):
    return "no %d %s\n" % (number, kind)


RECORDS = {}


def put(name, what, text, report):
    if name in RECORDS:
        raise ValueError(name)
    RECORDS[name] = (what, text if isinstance(text, bytes) else text_of(text), report)


def front(name, what, lines, number, *instead, kind="form"):
    """A record that ends with a line that is bad: these lines in place of the one of this number, the last one bad."""
    lines = lines[:number] + list(instead or [lines[number]])
    put(name, what, lines, no(len(lines), kind))


def changed(name, what, lines, number, line, kind):
    """A whole record with another line of this number, where it is bad."""
    put(name, what, lines[:number] + [line] + lines[number + 1 :], no(number + 1, kind))


# GOOD RECORDS

TWO_RACES = [("Mayor", ["Ada", "Ben"], 1), ("Council", ["Cy", "Dan", "Eve"], 2)]


def rich(version, draw="00ff"):
    """An election with all that may stand in a record: its lines, and what the audit says."""
    e = Election(version, 2, TWO_RACES, [("All", [0, 1]), ("Town", [1])], [(0, 3), (1, 2), (0, 2)], seed=version)
    blocks = [
        (1, "cast", {0: [0], 1: [0, 2]}),
        (2, "audited", None),
        (3, "voided" if version == 2 else "spoiled", None),
        (4, "cast", {1: "over"}),
        (5, "cast", {1: [1]}),
        (6, "cast", {}),
    ]
    mayor, council = e.code(1, 0, e.column(1, 0, 0)), e.code(1, 1, e.column(1, 1, 0))
    disputes = [
        (7, 0, e.code(7, 0, 1), "unposted"),
        (1, 0, mayor, "posted"),
        (1, 0, mayor, "posted"),
        (1, 0, e.code(1, 0, e.column(1, 0, 1)), "unposted"),
        (1, 1, council, "posted"),
        (1, 0, e.other_code(1, 0), "absent"),
        (2, 1, e.code(2, 1, 0), "unposted"),
        (3, 0, e.code(3, 0, 0), "unposted"),
        (4, 1, e.code(4, 1, 2), "unposted"),
        (6, 0, e.code(6, 0, 0), "unposted"),
    ]
    lines = e.lines(blocks, draw, disputes)
    return e, lines


def plain(version):
    """The lines of a smaller election, with a block of each fate, and the election."""
    races = [("Mayor", ["Ada", "Ben"], 1), ("Clerk", ["Cy", "Dan"], 2)]
    e = Election(version, 2, races, [("All", [0, 1]), ("Town", [1])], [(0, 2), (1, 2), (0, 1)])
    blocks = [(1, "cast", {0: [0], 1: [0, 1]}), (2, "audited", None), (3, "spoiled", None), (4, "cast", {1: "over"})]
    return e, e.lines(blocks, "00ff")


def good_records():
    for version in (1, 2):
        e, lines = rich(version)
        what = "version %d: two races, two styles, two instances, all fates, `over`, a public draw. Disputes of all answers and of ballots of each fate, one of them twice, and a ballot that disputes after a later one" % version
        put("good-%d" % version, what, lines, e.yes())
        put("good-%d-no-dispute" % version, "the same without its disputes: whole as well", lines[: at(lines, "dispute")], e.yes())
        put("good-%d-fewer-disputes" % version, "the same, cut between two disputes: whole as well, and no seal shows it", lines[: at(lines, "dispute", 2)], e.yes())
    e, lines = rich(2, FULL)
    put("good-full", "a full draw: rows of entries that nobody audited are opened on both sides", lines, e.yes())
    e = Election(runs=[(0, 2)])
    put("good-small", "two ballots, one race", e.lines([(1, "cast", {0: [0]}), (2, "cast", {0: [1]})]), e.yes())
    e = Election(runs=[(0, 2)])
    put("good-unused", "no ballot was used", e.lines([]), e.yes())
    e = Election(1, 16, runs=[(0, 1)])
    put("good-16-instances", "16 instances", e.lines([(1, "cast", {0: [1]})]), e.yes())
    e = Election(2, 1, [("Many", ["c%d" % j for j in range(16)], 16)], runs=[(0, 1)])
    put("good-16-candidates", "16 candidates and as many votes, all marked", e.lines([(1, "cast", {0: list(range(16))})]), e.yes())
    e = Election(1, 1, [("r%d" % r, ["Ada", "Ben"], 1) for r in range(32)], [("s%d" % s, [s]) for s in range(32)], [(31, 1), (0, 1)])
    put("good-32-races", "32 races and 32 styles, of which two have ballots; a race without any has totals alone, of 0", e.lines([(1, "cast", {31: [0]})]), e.yes())
    e = Election(2, 1, [("!" * 63 + "~", ["!", "~"], 2), ("Ada", ["Ada", "!"], 1)], [("Ada", [1]), ("!" * 64, [0, 1])], [(1, 1), (0, 1), (1, 1)])
    e.name = "~" * 64
    put("good-names", "names of 64 signs, from the first to the last sign that may stand in one; a race, a style and two candidates of one name", e.lines([(3, "cast", {0: [0, 1], 1: [1]})]), e.yes())
    e = Election(runs=[(0, 32)])
    put("good-64-bits", "64 rows: the bits stand on one line, and no empty one follows", e.lines([(b, "cast", {0: [b % 2]}) for b in range(1, 31)]), e.yes())
    e = Election(runs=[(0, 33)])
    put("good-66-bits", "66 rows: the bits stand on lines of 64 and of 2", e.lines([(b, "cast", {0: [b % 2]}) for b in range(2, 34)]), e.yes())
    e = Election(2, 3, [("Mayor", ["Ada", "Ben", "Cy"], 1)] * 1 + [("Clerk", ["Dan", "Eve"], 1)], runs=[(0, 12)])
    put("good-coins", "36 rows in each of three instances, and a second race: coins of several blocks and streams", e.lines([(b, "cast", {0: [b % 3], 1: [b % 2]}) for b in range(1, 13)], "536361", []), e.yes())
    e = Election(runs=[(0, 2)])
    put("good-draw-1", "a draw of one byte", e.lines([(1, "cast", {0: [0]})], "7f"), e.yes())
    e = Election(runs=[(0, 2)])
    put("good-draw-4096", "a draw of 4,096 bytes, the longest line that a record may have", e.lines([(1, "cast", {0: [0]})], "5c" * 4096), e.yes())
    equal_codes_allowed()
    altered_unseen()


def equal_codes_allowed():
    e = Election(races=[("Mayor", ["Ada", "Ben"], 1), ("Clerk", ["Cy", "Dan"], 1)], runs=[(0, 2)])
    for race in (0, 1):
        e.tables[race].codes[0:2] = e.tables[0].codes[2:4] = [123, 456]
    lines = e.lines([(1, "audited", None), (2, "cast", {0: [0]})])
    put("good-equal-codes", "two ballots with the same codes, and two races of a ballot: only in one race of one ballot codes differ", lines, e.yes())
    e = Election(runs=[(0, 2)])
    e.tables[0].codes[1] = e.tables[0].codes[0]
    put("good-equal-codes-unseen", "two equal codes of a ballot's race, of which the record shows one alone: nothing is found", e.lines([(1, "cast", {0: [0]})]), e.yes())


def altered_unseen():
    """A place more than there are marks, and only its row's left side is opened."""
    for seed in range(1, 99):
        e = Election(runs=[(0, 3)], seed=seed)
        blocks = [(1, "cast", {0: [0]}), (2, "cast", {0: [1]})]
        race = e.tables[0]
        extra = race.path[e.entry(3, 0, e.column(3, 0, 1))]
        row = race.rights[0].index(extra)
        draw = draw_where(lambda d: not coins(d, 0, 0, 6)[row])
        lines = e.lines(blocks, draw)
        place = at(lines, "places")
        signs = lines[place].split()[2]
        lines[place] = "places 0 " + signs[:extra] + "1" + signs[extra + 1 :]
        lines[at(lines, "total 0 1")] = "total 0 1 2"
        put("good-altered-unseen", "a place is set that no mark leads to, and the draw does not open its row on that side: the record breaks no rule, though the totals are off by one", lines, "yes\ntotal 0 0 1\ntotal 0 1 2\n")
        return


# WORDS AND LINES


def word_records():
    _, lines = plain(1)
    cast, code = at(lines, "cast 1"), at(lines, "code 0")
    small = Election(runs=[(0, 2)]).lines([(1, "cast", {0: [0]})])
    put("form-empty", "no byte: the missing line is the first", b"", no(1))
    put("form-line-feed-alone", "one empty line", b"\n", no(1))
    put("form-last-line-feed", "the last line has no line feed: it is a line, and bad", text_of(small)[:-1], no(len(small)))
    put("form-line-feed-behind", "an empty line after a whole record", text_of(small) + b"\n", no(len(small) + 1))
    put("form-bytes-behind", "a space after the last line feed of a whole record", text_of(small) + b" ", no(len(small) + 1))
    put("form-line-too-long", "a name of 20,000 signs: a line that is too long is one line", text_of(lines[:1]) + b"election " + b"e" * 20000 + b"\n" + text_of(lines[2:9]), no(2))
    put("form-byte-order-mark", "a byte order mark before the first line", b"\xef\xbb\xbf" + text_of(small), no(1))
    for name, what, line in [
        ("two-spaces", "two spaces between two words", "cast  1"),
        ("space-before", "a space before the first word", " cast 1"),
        ("space-behind", "a space after the last word", "cast 1 "),
        ("tab", "a tab in place of the space", "cast\t1"),
        ("carriage-return", "a carriage return before the line feed", "cast 1\r"),
        ("no-break-space", "a byte that is no ASCII and a space in other alphabets", "cast\xa01"),
        ("vertical-tab", "a vertical tab at the end of a line", "cast 1\x0b"),
        ("zero-byte", "a zero byte at the end of a line", "cast 1\x00"),
        ("leading-zero", "a number with a leading zero", "cast 01"),
        ("plus-sign", "a number with a sign", "cast +1"),
        ("underscore", "a number with an underscore", "cast 1_"),
        ("number-of-33-bits", "4294967297, which is 1 in 32 bits", "cast 4294967297"),
        ("word-missing", "a word too few", "cast"),
        ("word-more", "a word too many", "cast 1 1"),
        ("upper-case", "a word of another case", "Cast 1"),
    ]:
        front("form-" + name, what, lines, cast, line)
    front("form-arabic-digit", "a digit of another script, in UTF-8", lines, cast, "cast \xd9\xa1")
    front("form-key-upper-case", "a key with an upper-case digit", lines, code, upper(lines[code], 3))
    front("form-key-short", "a key of 30 digits", lines, code, lines[code].replace(lines[code].split()[3], lines[code].split()[3][:30]))
    front("form-digest-upper-case", "a digest with an upper-case digit", lines, at(lines, "code-commit"), upper(lines[at(lines, "code-commit")], 2))
    front("form-code-of-four", "a code of four signs", lines, code, lines[code] + "0")
    front("form-code-of-version-2", "a code of version 2 in version 1", lines, code, lines[code][:-3] + "PRJ")
    _, second = plain(2)
    code = at(second, "code 0")
    front("form-code-of-version-1", "a code of version 1, with 0 and 1, in version 2", second, code, second[code][:-3] + "101")
    front("form-code-lower-case", "a code of version 2 with a lower-case sign", second, code, second[code][:-3] + "prj")
    front("form-code-with-o", "a code of version 2 with O, which it does not have", second, code, second[code][:-3] + "2O2")
    total = at(small, "total")
    front("form-total-of-33-bits", "a total of 4294967296", small, total, "total 0 0 4294967296")
    changed("total-of-32-bits", "a total of 4294967295 is a number, and wrong", small, total, "total 0 0 4294967295", "total")


def upper(line, place):
    words = line.split(" ")
    if words[place] == words[place].upper():
        raise ValueError(line)
    words[place] = words[place].upper()
    return " ".join(words)


# THE PLAN


def plan_records():
    _, lines = plain(1)
    race, style, run = at(lines, "race"), at(lines, "style"), at(lines, "ballots")
    for name, what, number, *instead in [
        ("version-0", "version 0", 0, "scantegrity2 0"),
        ("version-3", "version 3", 0, "scantegrity2 3"),
        ("election-missing", "`instances` where the election's name is due", 1, lines[2]),
        ("name-of-65", "a name of 65 signs", 1, "election " + "e" * 65),
        ("name-with-del", "a name with the byte 0x7F", 1, "election E\x7f"),
        ("name-of-latin-1", "a name with the byte 0xE9", 1, "election Ren\xe9"),
        ("name-of-utf-8", "a name in UTF-8", 1, "election Ren\xc3\xa9"),
        ("no-instance", "0 instances", 2, "instances 0"),
        ("17-instances", "17 instances", 2, "instances 17"),
        ("style-before-race", "a style before any race", race, lines[style]),
        ("1-candidate", "a race of one candidate", race, "race Mayor 1 1"),
        ("17-candidates", "a race of 17 candidates", race, "race Mayor 17 1"),
        ("no-vote", "a race of no vote", race, "race Mayor 2 0"),
        ("votes-past-candidates", "more votes than candidates", race, "race Mayor 2 3"),
        ("race-twice", "two races of one name, the second one bad at its `race` line", race + 3, "race Mayor 2 2"),
        ("33-races", "a 33rd race", race, *sum([["race r%d 2 1" % r, "cand Ada", "cand Ben"] for r in range(32)], []), "race r32 2 1"),
        ("candidate-twice", "two candidates of a race of one name", race + 2, lines[race + 1]),
        ("candidate-missing", "a race with a candidate too few", race + 2, lines[race + 3]),
        ("candidate-more", "a race with a candidate too many", race + 3, "cand Cyd"),
        ("run-before-style", "a run before any style", style, lines[run]),
        ("race-behind-style", "a race after a style", style + 1, "race Clerk 2 1"),
        ("style-word", "another word where a style is due", style, "Style All 0"),
        ("style-without-race", "a style without a race", style, "style All"),
        ("style-of-no-race", "a style with a race that there is not", style, "style All 0 2"),
        ("style-races-fall", "a style whose races fall", style, "style All 1 0"),
        ("style-race-twice", "a style with a race twice", style, "style All 1 1"),
        ("style-twice", "two styles of one name", style + 1, "style All 1"),
        ("33-styles", "a 33rd style", style, *["style s%d 0" % s for s in range(33)]),
        ("run-missing", "commitments after the styles, without any run", run, lines[at(lines, "code-commit")]),
        ("style-behind-run", "a style after a run", run + 1, "style Late 0"),
        ("run-of-no-style", "a run of a style that there is not", run, "ballots 2 1"),
        ("run-of-no-ballot", "a run of no ballot", run, "ballots 0 0"),
        ("20001-ballots", "20,000 ballots in a run, and one in a second: the second run is bad", run, "ballots 1 19999", "ballots 1 1", "ballots 1 1"),
    ]:
        front("plan-" + name, what, lines, number, *instead)
    wide = ["scantegrity2 1", "election E", "instances 16", "race Mayor 2 1", "cand Ada", "cand Ben", "style All 0"]
    put("plan-200032-rows", "16 instances of two candidates: 6,250 ballots make 200,000 rows of all instances, and a run of one more is bad", wide + ["ballots 0 6250", "ballots 0 1"], no(9))
    wide = list(Election(races=[("r%d" % k, ["c%d" % j for j in range(k)], 1) for k in (16, 2, 3)], styles=[("s%d" % r, [r]) for r in range(3)]).plan())
    runs = ["ballots 0 12499", "ballots 1 7", "ballots 2 1"]
    put("plan-200001-rows", "races of 16, 2 and 3 candidates: 12,499, 7 and 1 ballots make 200,001 rows, and the third run is bad", wide[: at(wide, "ballots")] + runs, no(at(wide, "ballots") + 3))
    commit, rows = at(lines, "code-commit"), at(lines, "row-commit")
    front("plan-run-behind-commitment", "a run after the first commitment", lines, commit + 1, lines[run])
    front("commit-of-later-race", "a commitment of race 1 where one of race 0 is due", lines, commit, lines[at(lines, "code-commit 1")])
    front("commit-entry-missing", "rows where an entry is due", lines, at(lines, "code-commit 1"), lines[rows])
    front("commit-entry-more", "an entry too many", lines, rows, lines[commit].replace("code-commit 0", "code-commit 1"))
    front("commit-of-later-instance", "a row of instance 1 where one of instance 0 is due", lines, rows, lines[at(lines, "row-commit 0 1")])
    seal = at(lines, "seal 1")
    front("commit-row-missing", "the seal where a row is due", lines, seal - 1, lines[seal])
    number = "seal 2 " + made.hashlib.sha256(text_of(lines[:seal])).hexdigest()
    front("seal-of-next-section", "`seal 2` with the right digest in place of `seal 1`", lines, seal, number)
    small = Election(runs=[(0, 2)]).lines([(1, "cast", {0: [0]})])
    sealed = text_of(small).decode().split("\n")
    for which in (1, 2, 3):
        seal = at(small, "seal %d" % which)
        changed("seal-%d" % which, "seal %d with one digit changed" % which, small, seal, other_digit(sealed[seal]), "seal")
        put("cut-before-seal-%d" % which, "a record that ends before seal %d: the missing line is bad" % which, small[:seal], no(seal + 1))
        if which < 3:
            put("cut-behind-seal-%d" % which, "a record that ends after seal %d, as it is posted before its end" % which, small[: seal + 1], no(seal + 2))
    section = made.hashlib.sha256(text_of(small)[len(text_of(small[: at(small, "cast")])) : len(text_of(small[: at(small, "seal 2")]))])
    changed("seal-of-section", "a second seal of its section's bytes alone", small, at(small, "seal 2"), "seal 2 " + section.hexdigest(), "seal")


def other_digit(line):
    return line[:-1] + ("0" if line[-1] != "0" else "1")


# BALLOTS' BLOCKS


def block_records():
    e, lines = plain(1)
    cast, code = at(lines, "cast 1"), at(lines, "code 0")
    one, audited, town = at(lines, "code 1"), at(lines, "audited"), at(lines, "cast 4")
    first = e.code_line(1, 0, 0)
    front("ballot-0", "ballot 0", lines, cast, "cast 0")
    front("ballot-past-plan", "a ballot that the plan does not have", lines, cast, "cast 6")
    front("ballots-fall", "a ballot after a later one", lines, town, "cast 1")
    front("ballot-twice", "a ballot twice, with two fates", lines, audited, "spoiled 1")
    front("ballot-voided-in-1", "`voided` in version 1", lines, at(lines, "spoiled"), "voided 3")
    front("ballot-spoiled-code", "a code in the block of a spoiled ballot", lines, town, first)
    front("ballot-behind-results", "a ballot after the first flags", lines, at(lines, "flags") + 1, "cast 5")
    front("cast-column-past-candidates", "a column that the race does not have", lines, code, lines[code].replace("code 0 " + lines[code].split()[2], "code 0 2"))
    front("cast-columns-fall", "columns of a race that fall", lines, one, *reversed(lines[one : one + 2]))
    front("cast-column-twice", "a column twice", lines, one, lines[one], lines[one])
    front("cast-races-fall", "races that fall", lines, one, lines[one], first)
    front("cast-over-falls", "an `over` of an earlier race", lines, one + 1, "over 0")
    front("cast-code-of-no-race", "a code of a race that there is not", lines, code, lines[code].replace("code 0", "code 2"))
    front("cast-over-of-no-race", "an `over` of a race that there is not", lines, code, "over 2")
    front("cast-code-not-of-style", "a code of a race that the ballot does not have", lines, town + 1, first)
    front("cast-over-not-of-style", "an `over` of a race that the ballot does not have", lines, town + 1, "over 0")
    front("cast-over-twice", "an `over` twice", lines, town + 2, "over 1")
    front("cast-code-behind-over", "a code after the `over` of its race: form", lines, town + 2, e.code_line(4, 1, 0))
    front("rule-over-behind-code", "an `over` after a code of its race: rule", lines, code + 1, "over 0", kind="rule")
    front("form-before-opening", "a column twice, with a key that opens nothing: form comes first", lines, one + 1, wrong_key(lines[one]))
    paper = at(lines, "paper")
    front("audited-paper-missing", "a code where the second paper is due", lines, paper + 1, lines[paper + 2])
    front("audited-papers-fall", "the papers in another order", lines, paper, lines[paper + 1])
    front("audited-paper-short", "a paper with a code too few", lines, paper + 1, lines[paper + 1].rsplit(" ", 1)[0])
    front("audited-paper-long", "a paper with a code too many", lines, paper, lines[paper] + " 000")
    front("audited-code-missing", "the next block where a code is due", lines, paper + 5, "spoiled 3")
    front("audited-codes-fall", "the codes of an audited ballot in another order", lines, paper + 2, lines[paper + 3])
    front("audited-over", "an `over` in the block of an audited ballot", lines, paper + 6, "over 1")


def wrong_key(line):
    """The line, with another last digit of its first key."""
    words = line.split(" ")
    place = next(at for at, word in enumerate(words) if len(word) == 32)
    words[place] = other_digit(words[place])
    return " ".join(words)


# CODES


def code_records():
    e = Election(runs=[(0, 2)])
    lines = e.lines([(1, "cast", {0: [0]})])
    code = at(lines, "code 0")
    changed("opening-code-key", "a code with a key that does not open its commitment", lines, code, wrong_key(lines[code]), "opening")
    changed("opening-code", "another code, with the key of the right one", lines, code, lines[code][:-3] + e.other_code(1, 0), "opening")
    e = Election(runs=[(0, 2)])
    lines = e.lines([(1, "cast", {0: [0, 1]})])
    code = at(lines, "code 0", 1)
    put("rule-votes", "a code more than a voter has votes; all else agrees with both", lines, no(code + 1, "rule"))
    changed("opening-before-rule", "the same, and its key is wrong: opening comes first", lines, code, wrong_key(lines[code]), "opening")
    e, lines = Election(runs=[(0, 2)]), []
    disputes = [(1, 0, e.code(1, 0, c), "posted" if c == e.column(1, 0, 0) else "unposted") for c in (0, 1)]
    lines = e.lines([(1, "cast", {0: [0]})], FULL, disputes)
    put("good-votes-and-disputes", "disputes of a ballot with as many codes as votes: the votes are counted in the ballot's own block alone", lines, e.yes())
    e = Election(races=[("Mayor", ["Ada", "Ben", "Cy"], 2)], runs=[(0, 2)])
    e.tables[0].codes[2] = e.tables[0].codes[0]
    columns = [0, 2]
    lines = e.lines([(1, "cast", {0: [e.tables[0].shown[c] for c in columns]})])
    put("rule-equal-codes-cast", "two equal codes in the block of a cast ballot", lines, no(at(lines, "code 0", 1) + 1, "rule"))
    e = Election(runs=[(0, 2)])
    e.tables[0].codes[1] = e.tables[0].codes[0]
    lines = e.lines([(1, "cast", {0: [e.tables[0].shown[1]]})], FULL, [(1, 0, e.code(1, 0, 0), "posted")])
    put("rule-equal-codes-of-two-blocks", "a cast ballot's code, and a dispute that shows another entry with the same: bad at the first code of the dispute", lines, no(at(lines, "dispute") + 2, "rule"))
    e = Election(runs=[(0, 2)])
    e.tables[0].codes[1] = e.tables[0].codes[0]
    lines = e.lines([], FULL, [(1, 0, e.other_code(1, 0), "posted")])
    put("rule-before-dispute", "equal codes at the last code of a dispute with a wrong answer: rule comes first", lines, no(at(lines, "dispute") + 3, "rule"))
    e = Election(runs=[(0, 2)])
    e.tables[0].codes[1] = e.tables[0].codes[0]
    lines = e.lines([(1, "audited", None)])
    put("rule-paper", "a paper with two equal codes: rule, at the paper", lines, no(at(lines, "paper") + 1, "rule"))
    paper = at(lines, "paper")
    changed("rule-equal-codes-audited", "two equal codes of an audited ballot whose paper had others: at the second one", lines, paper, "paper 0 001 002", "rule")
    RECORDS["rule-equal-codes-audited"] = RECORDS["rule-equal-codes-audited"][:2] + (no(paper + 3, "rule"),)


# FLAGS, PLACES, TOTALS


def result_records():
    e = Election(runs=[(0, 33)])
    lines = e.lines([])
    flags = at(lines, "flags")
    bits = lines[flags].split()[2] + lines[flags + 1].split()[2]
    front("bits-of-66", "66 bits on one line", lines, flags, "flags 0 0 " + bits)
    front("bits-of-33", "66 bits on lines of 33", lines, flags, "flags 0 0 " + bits[:33])
    _, lines = plain(1)
    flags, places, total = at(lines, "flags"), at(lines, "places"), at(lines, "total")
    front("bits-missing", "a flag too few", lines, flags, lines[flags][:-1])
    front("bits-more", "a flag too many", lines, flags, lines[flags] + "0")
    front("bits-of-2", "a flag that is neither 0 nor 1", lines, flags, lines[flags][:-1] + "2")
    front("bits-of-later-instance", "the flags of instance 1 where those of instance 0 are due", lines, flags, lines[flags + 1])
    front("bits-places-first", "the places before the flags", lines, flags, lines[places])
    front("total-missing", "the next race where a total is due", lines, total + 1, lines[total + 2])
    front("total-of-later-candidate", "the totals in another order", lines, total, lines[total + 1])
    front("total-behind-seal", "the draw before the second seal", lines, at(lines, "seal 2"), lines[at(lines, "draw")])
    e = Election(runs=[(0, 2)])
    lines = e.lines([(1, "cast", {0: [0]}), (2, "cast", {0: [0]})])
    total = at(lines, "total 0 0")
    changed("total-low", "a total that is one too low", lines, total, "total 0 0 1", "total")
    lines[total], lines[total + 1] = "total 0 0 0", "total 0 1 2"
    put("total-exchanged", "the totals of two candidates exchanged", lines, no(total + 1, "total"))
    # A mark whose place is not set, with the totals of the places: the flag of its row is what differs.
    e = Election(runs=[(0, 2)])
    lines = e.lines([(1, "cast", {0: [0]})])
    lines[at(lines, "places")], lines[at(lines, "total 0 0")] = "places 0 0000", "total 0 0 0"
    row = e.tables[0].lefts[0].index(min(e.tables[0].marked))
    put("flag-of-missing-place", "a mark whose place is not set, and totals that agree with the places: flag, at the row", lines, no(at(lines, "draw") + 2 + row, "flag"))


# THE DRAW AND ITS ROWS


def draw_records():
    e = Election(runs=[(0, 2)])
    lines = e.lines([(1, "cast", {0: [0]})], "00ff")
    draw = at(lines, "draw")
    front("draw-of-no-byte", "a draw of no byte", lines, draw, "draw ")
    front("draw-without-word", "a draw without a second word", lines, draw, "draw")
    front("draw-of-half-byte", "a draw of three digits", lines, draw, "draw 00f")
    front("draw-upper-case", "a draw of upper-case digits", lines, draw, "draw 00FF")
    front("draw-of-two-words", "a draw of two words", lines, draw, "draw 00 ff")
    front("draw-of-4097", "a draw of 4,097 bytes", lines, draw, "draw " + "00" * 4097)
    full = e.lines([(1, "cast", {0: [0]})])
    front("row-missing", "the seal where a row is due", full, at(full, "seal 3") - 1, "seal 3")
    front("row-more", "a row too many", full, at(full, "seal 3"), full[at(full, "both")])
    front("row-without-pointer", "a row without its right pointer", full, at(full, "both"), full[at(full, "both")].rsplit(" ", 1)[0])
    row = at(full, "both")
    left = "left " + " ".join(full[row].split()[1:3])
    right = "right " + " ".join(full[row].split()[3:5])
    changed("side-full-left", "a row opened on the left side alone, with a full draw", full, row, left, "side")
    changed("side-full-right", "a row opened on the right side alone, with a full draw", full, row, right, "side")
    changed("opening-left", "a left opening with another key", full, row, wrong_key(full[row]), "opening")
    words = full[row].split(" ")
    words[3] = other_digit(words[3])
    changed("opening-right", "a right opening with another key", full, row, " ".join(words), "opening")
    words = full[row].split(" ")
    changed("opening-exchanged", "the openings of a row exchanged", full, row, " ".join(["both"] + words[3:5] + words[1:3]), "opening")
    changed("opening-of-next-row", "a row with the openings of the next one", full, row, full[row + 1], "opening")
    changed("opening-before-side", "a row opened on the left side alone, with a full draw and a wrong key", full, row, wrong_key(left), "opening")
    two = Election(instances=2, runs=[(0, 2)])
    public = draw_where(lambda d: coins(d, 0, 0, 4)[1] != coins(d, 0, 1, 4)[1])
    lines = two.lines([(1, "cast", {0: [0]})], public)
    for i in (0, 1):
        row = at(lines, "draw") + 1 + 4 * i + 1
        opening = two.tables[0].openings(i, 1)
        other = "left " + opening[0] if lines[row].startswith("right") else "right " + opening[1]
        changed("side-off-coin-%d" % i, "row 1 of instance %d, opened on the side that its coin does not name" % i, lines, row, other, "side")
    pointer_records()
    flag_records()


def pointer_records():
    e = Election(instances=2, runs=[(0, 2)])
    e.tables[0].lefts[1][2] = 4
    lines = e.lines([(1, "cast", {0: [0]})])
    row = at(lines, "draw") + 1 + 4 + 2
    put("pointer-left-of-n", "a left pointer that is n", lines, no(row + 1, "pointer"))
    left = "left " + " ".join(lines[row].split()[1:3])
    changed("side-before-pointer", "the same, opened on the left side alone: side comes first", lines, row, left, "side")
    e = Election(runs=[(0, 2)])
    e.tables[0].rights[0][2] = 4294967295
    lines = e.lines([(1, "cast", {0: [0]})])
    row = at(lines, "draw") + 1 + 2
    put("pointer-right-of-32-bits", "a right pointer of 4294967295", lines, no(row + 1, "pointer"))
    e = Election(instances=2, runs=[(0, 2)])
    e.tables[0].lefts[1][3] = e.tables[0].lefts[1][0]
    lines = e.lines([(1, "cast", {0: [0]})])
    put("pointer-left-twice", "a left pointer that an earlier row of the instance has", lines, no(at(lines, "draw") + 2 + 4 + 3, "pointer"))
    e = Election(instances=2, runs=[(0, 2)])
    e.tables[0].rights[0][3] = e.tables[0].rights[0][1]
    lines = e.lines([(1, "cast", {0: [0]})])
    put("pointer-right-twice", "a right pointer that an earlier row of the instance has", lines, no(at(lines, "draw") + 2 + 3, "pointer"))
    # Two rows that are opened on one side each, and one row opened on both sides before one that is opened on one.
    e = Election(runs=[(0, 4)])
    public = draw_where(lambda d: coins(d, 0, 0, 8)[1:3] == [True, True])
    e.tables[0].rights[0][2] = e.tables[0].rights[0][1]
    lines = e.lines([(1, "cast", {0: [0]})], public)
    put("pointer-right-twice-single", "the same where each of the rows is opened on the right side alone", lines, no(at(lines, "draw") + 2 + 2, "pointer"))
    e = Election(runs=[(0, 4)])
    first = min(e.tables[0].lefts[0].index(q) for q in (0, 1))
    later = next(row for row in range(first + 1, 8) if e.tables[0].lefts[0][row] > 1)
    public = draw_where(lambda d: coins(d, 0, 0, 8)[later])
    e.tables[0].rights[0][later] = e.tables[0].rights[0][first]
    lines = e.lines([(1, "audited", None)], public)
    put("pointer-both-and-right", "a row opened on the right side alone, with the pointer of a row opened on both", lines, no(at(lines, "draw") + 2 + later, "pointer"))
    e = Election(runs=[(0, 4)])
    first = min(e.tables[0].lefts[0].index(q) for q in (0, 1))
    later = next(row for row in range(first + 1, 8) if e.tables[0].lefts[0][row] > 1)
    public = draw_where(lambda d: not coins(d, 0, 0, 8)[later])
    e.tables[0].lefts[0][later] = e.tables[0].lefts[0][first]
    lines = e.lines([(1, "audited", None)], public)
    number = at(lines, "draw") + 1 + later
    left = "left " + e.tables[0].openings(0, later)[0]
    changed("pointer-before-print", "a row opened on the left side alone, with the entry of a row opened on both: pointer comes before print", lines, number, left, "pointer")


def flag_records():
    e = Election(instances=2, runs=[(0, 2)])
    lines = e.lines([(1, "cast", {0: [0]})])
    flags = at(lines, "flags 0 1")
    row = 2
    lines[flags] = flipped(lines[flags], row)
    put("flag-both", "a wrong flag of a row opened on both sides", lines, no(at(lines, "draw") + 2 + 4 + row, "flag"))
    for side in ("left", "right"):
        e = Election(runs=[(0, 2)])
        public = draw_where(lambda d: coins(d, 0, 0, 4)[1] == (side == "right"))
        lines = e.lines([(1, "cast", {0: [0]})], public)
        flags = at(lines, "flags")
        lines[flags] = flipped(lines[flags], 1)
        put("flag-" + side, "a wrong flag of a row opened on the %s side alone" % side, lines, no(at(lines, "draw") + 3, "flag"))
    # Two places of one candidate exchanged in the tables: the row's entry agrees with its flag, its place does not.
    e = Election(runs=[(0, 2)])
    marked = e.entry(1, 0, e.column(1, 0, 0))
    other = e.entry(2, 0, e.column(2, 0, 0))
    swap(e.tables[0], [0], marked, other)
    lines = e.lines([(1, "cast", {0: [0]})])
    row = min(e.tables[0].lefts[0].index(q) for q in (marked, other))
    put("flag-of-place-alone", "a row whose flag agrees with its entry and not with its place", lines, no(at(lines, "draw") + 2 + row, "flag"))
    public = draw_where(lambda d: not any(coins(d, 0, 0, 4)[e.tables[0].lefts[0].index(q)] for q in (marked, other)))
    put("good-flag-of-place-unseen", "the same where the draw opens the left sides: nothing is found", e.lines([(1, "cast", {0: [0]})], public), e.yes())


def flipped(line, bit):
    head, bits = line.rsplit(" ", 1)
    return head + " " + bits[:bit] + ("1" if bits[bit] == "0" else "0") + bits[bit + 1 :]


def swap(race, instances, entry, other):
    """Exchanges the places to which two entries lead in these instances."""
    for i in instances:
        rows = [race.lefts[i].index(entry), race.lefts[i].index(other)]
        race.rights[i][rows[0]], race.rights[i][rows[1]] = race.rights[i][rows[1]], race.rights[i][rows[0]]


# PATHS AND PRINTS


def path_records():
    # Of two ballots without a mark: instance 1 exchanges places of one candidate.
    e = Election(instances=2, runs=[(0, 2)])
    entries = [e.entry(b, 0, e.column(b, 0, 0)) for b in (1, 2)]
    swap(e.tables[0], [1], *entries)
    lines = e.lines([])
    row = min(e.tables[0].lefts[1].index(q) for q in entries)
    put("path-other-place", "instance 1 leads an entry to another place of the same candidate than instance 0", lines, no(at(lines, "draw") + 2 + 4 + row, "path"))
    # Instance 0 leads both entries of a ballot to one candidate.
    e = Election(instances=1, runs=[(0, 2)])
    mine = [e.entry(1, 0, c) for c in (0, 1)]
    moved = e.entry(1, 0, e.column(1, 0, 0))
    other = e.entry(2, 0, e.column(2, 0, 1))
    swap(e.tables[0], [0], moved, other)
    lines = e.lines([])
    last = max(e.tables[0].lefts[0].index(q) for q in mine)
    second = max(e.tables[0].lefts[0].index(e.entry(2, 0, c)) for c in (0, 1))
    put("path-one-candidate", "two entries of a ballot are led to places of one candidate", lines, no(at(lines, "draw") + 2 + min(last, second), "path"))
    # The same with a mark: the flag differs too, and comes first.
    e = Election(instances=2, runs=[(0, 2)])
    entries = [e.entry(b, 0, e.column(b, 0, 0)) for b in (1, 2)]
    swap(e.tables[0], [1], *entries)
    lines = e.lines([(1, "cast", {0: [0]})])
    row = min(e.tables[0].lefts[1].index(q) for q in entries)
    put("flag-before-path", "an entry that is marked is led to another place in instance 1, which is not set: flag comes first", lines, no(at(lines, "draw") + 2 + 4 + row, "flag"))
    # An audited ballot's entries exchanged in instance 1: path and print at once.
    e = Election(instances=2, runs=[(0, 2)])
    swap(e.tables[0], [1], 0, 1)
    lines = e.lines([(1, "audited", None)])
    row = min(e.tables[0].lefts[1].index(q) for q in (0, 1))
    put("path-before-print", "an audited ballot's entries are led to each other's places in instance 1: path comes before print", lines, no(at(lines, "draw") + 2 + 4 + row, "path"))
    for draw, name in ((FULL, "full"), ("00ff", "public")):
        e = Election(instances=2, runs=[(0, 2)])
        swap(e.tables[0], [0, 1], 0, 1)
        lines = e.lines([(1, "audited", None)], draw)
        row = min(e.tables[0].lefts[0].index(q) for q in (0, 1))
        put("print-paper-" + name, "an audited ballot's entries are led to each other's places in all instances, which its paper contradicts (draw %s)" % name, lines, no(at(lines, "draw") + 2 + row, "print"))
    e = Election(runs=[(0, 2)])
    lines = e.lines([(1, "audited", None)])
    paper = at(lines, "paper")
    words = lines[paper].split(" ")
    lines[paper] = " ".join(words[:3] + [next(w for w in ("001", "002", "003") if w not in words)])
    candidate_row = e.tables[0].lefts[0].index(e.entry(1, 0, e.column(1, 0, 1)))
    put("print-paper-other-code", "a paper with a code that the ballot does not have, beside candidate 1", lines, no(at(lines, "draw") + 2 + candidate_row, "print"))


def print_records():
    """Elections of four ballots and two instances, of which the first ballot is audited."""
    blocks = [(1, "audited", None), (2, "cast", {0: [1]})]
    e = Election(instances=2)
    race, row = e.tables[0], e.tables[0].lefts[0].index(0)
    to_right, to_left = (draw_where(lambda d: coins(d, 0, 0, 8)[row] == side) for side in (True, False))
    left, right = ("%s %s" % opened for opened in zip(("left", "right"), race.openings(0, row)))
    lines = e.lines(blocks, to_right)
    first = at(lines, "draw") + 1
    put("good-print", "a public draw after a print audit", lines, e.yes())
    changed("side-before-print", "a row of an audited entry is opened on the left side alone, which is not its coin's: side comes first", lines, first + row, left, "side")
    lines[first + row] = right
    put("print-audited-right", "the same on the right side, its coin's: found at the last row of the instance, where a row opened on both sides is missing", lines, no(first + 8, "print"))
    lines = e.lines(blocks, to_left)
    changed("print-audited-left", "a row of an audited entry is opened on the left side alone, its coin's: found at the row", lines, first + row, left, "print")
    other = next(row for row in range(8) if race.lefts[0][row] > 1)
    changed("print-not-audited", "a row of an entry that nobody audited is opened on both sides", lines, first + other, "both %s %s" % race.openings(0, other), "print")
    for seed in range(99):
        e = Election(instances=2, seed=seed)
        mine, theirs = e.entry(1, 0, e.column(1, 0, 0)), e.entry(3, 0, e.column(3, 0, 0))
        row = e.tables[0].lefts[1].index(theirs)
        if row < e.tables[0].lefts[1].index(mine):
            break
    swap(e.tables[0], [1], mine, theirs)
    lines = e.lines(blocks, "00ff")
    opened = "both %s %s" % e.tables[0].openings(1, row)
    changed("print-at-place-of-another", "in instance 1 a row opened on both sides leads an entry that nobody audited to the place that an audited entry of another ballot has in instance 0: no fault of path", lines, first + 8 + row, opened, "print")
    e = Election(1, 1, TWO_RACES, [("All", [0, 1]), ("Town", [1])], [(1, 1), (0, 2)])
    put("good-print-of-one-race", "the audited ballot has one of two races: in the other no row is opened on both sides", e.lines([(1, "audited", None), (2, "cast", {0: [1]})], "00ff"), e.yes())


# DISPUTES


def dispute_records():
    e = Election(races=[("Mayor", ["Ada", "Ben"], 1), ("Clerk", ["Cy", "Dan"], 1)], styles=[("All", [0, 1]), ("Town", [1])], runs=[(0, 3), (1, 1)])
    blocks = [(1, "cast", {0: [0], 1: [1]}), (2, "audited", None), (3, "cast", {0: "over"})]
    marked, unmarked = (e.code(1, 0, e.column(1, 0, j)) for j in (0, 1))
    other_race = e.code(1, 1, e.column(1, 1, 1))
    strange = e.other_code(1, 0)
    lines = e.lines(blocks, FULL)
    end = len(lines)

    def told(name, what, ballot, race, code, word, right):
        text = lines + e.dispute(ballot, race, code, word)
        report = e.yes() if word == right else no(len(text), "dispute")
        put(("good-" if word == right else "") + "dispute-" + name, what, text, report)

    for is_code, code, right in (("posted", marked, "posted"), ("unposted", unmarked, "unposted"), ("absent", strange, "absent")):
        for word in ("posted", "unposted", "absent"):
            if word != right:
                told("%s-for-%s" % (word, is_code), "`%s` where the code is %s: bad at the last code of the block" % (word, is_code), 1, 0, code, word, right)
    told("code-of-other-race", "a code that is posted for another race of the ballot, and not on it in this one", 1, 0, other_race, "absent", "absent")
    told("posted-in-other-race", "the same, answered `posted`", 1, 0, other_race, "posted", "absent")
    told("code-of-other-ballot", "a code that is posted for another ballot", 2, 0, marked, "absent", "absent")
    told("audited-unposted", "a code of an audited ballot is unposted, though its block shows it", 2, 0, e.code(2, 0, 0), "unposted", "unposted")
    told("audited-posted", "the same, answered `posted`", 2, 0, e.code(2, 0, 0), "posted", "unposted")
    told("over", "a code of a race with too many marks is unposted", 3, 0, e.code(3, 0, 1), "unposted", "unposted")
    told("unused", "a dispute of a ballot that has no block", 4, 1, e.code(4, 1, 0), "unposted", "unposted")
    good = lines + e.dispute(1, 0, marked, "posted")
    front("dispute-past-plan", "a dispute of a ballot that there is not", good, end, good[end].replace("dispute 1", "dispute 5"))
    front("dispute-ballot-0", "a dispute of ballot 0", good, end, good[end].replace("dispute 1 0", "dispute 0 1"))
    front("dispute-not-of-style", "a dispute of a race that the ballot does not have", good, end, good[end].replace("dispute 1 0", "dispute 4 0"))
    front("dispute-word", "an answer that is none of the three", good, end, good[end].replace("posted", "Posted"))
    front("dispute-before-seal", "a dispute before the third seal", good, end - 1, good[end])
    front("dispute-code-missing", "the next dispute where a code is due", good, end + 2, good[end])
    front("dispute-codes-fall", "the codes of a dispute in another order", good, end + 1, good[end + 2])
    front("dispute-code-of-other-race", "a code of another race of the ballot", good, end + 1, e.code_line(1, 1, 0))
    front("dispute-code-more", "a code too many", good + [good[end + 2]], end + 3)
    front("dispute-over", "an `over` after a dispute", good + ["over 0"], end + 3)
    front("dispute-opening", "a code of a dispute that does not open its commitment", good, end + 1, wrong_key(good[end + 1]), kind="opening")
    put("dispute-cut", "a record that ends within a dispute: the missing line is bad", good[:-1], no(len(good)))
    front("end-ballot", "a ballot after the last seal", lines + ["cast 4"], end)
    front("end-seal", "a fourth seal", lines + ["seal 4 " + "0" * 64], end)
    front("end-record", "a second record after the first", lines + lines[:1], end)
    e = Election(runs=[(0, 1)])
    lines = e.lines([])
    block = e.dispute(1, 0, e.code(1, 0, 0), "unposted")
    many = lines + block * 10000 + block[:1]
    put("dispute-10001", "10,000 disputes, and a 10,001st", many, no(len(many)))


# ASKS


def ask_case(version):
    """An election file, asks, and what must be replied to each by the tables of docs/OFFICE.md; the office of office.py must
    say the same."""
    plan = {
        "version": version,
        "name": "Vectors-%d" % version,
        "instances": 2,
        "races": [
            {"name": "Mayor", "candidates": ["Ada", "Ben"], "votes": 1},
            {"name": "Council", "candidates": ["Cy", "Dan", "Eve"], "votes": 2},
        ],
        "styles": [{"name": "All", "races": [0, 1]}, {"name": "Town", "races": [1]}],
        "runs": [{"style": 0, "ballots": 8}, {"style": 1, "ballots": 2}],
    }
    secrets = ["000102030405060708090a0b0c0d0e0f", "f0e0d0c0b0a090807060504030201000"]
    file = {"plan": plan, "seed": bytes(range(32)).hex(), "secrets": secrets}
    election = offices.Election(json.dumps(file))
    asks = list(asks_of(election, secrets))
    office = offices.Office(election)
    for line, wanted in asks:
        told = reply_text(offices.answer_line(office, line.encode())[1])
        if told != wanted:
            raise ValueError("%s: %s, and not %s" % (line, told, wanted))
    text = io.BytesIO()
    office.write(made.Record(text))
    return {
        "election.json": json.dumps(file, separators=(",", ":")) + "\n",
        "asks.jsonl": "".join(line + "\n" for line, _ in asks),
        "replies.jsonl": "".join(reply + "\n" for _, reply in asks),
        "sheet": "".join(line + "\n" for line in election.sheet()),
        "record": text.getvalue().decode(),
        "report": "yes\ntotal 0 0 1\ntotal 0 1 1\ntotal 1 0 1\ntotal 1 1 1\ntotal 1 2 1\n",
    }


def reply_text(reply):
    return json.dumps(reply, separators=(",", ":"), sort_keys=True)


OK = '{"status":200}'


def asks_of(election, secrets):
    """The asks, each with its reply."""
    refs = {0: iter(range(1, 999)), 1: iter(range(1, 999))}
    papers = {b: election.paper(b) for b in election.ballots}

    def ask(kind, station=None, ref=None, **members):
        whole = {"ask": kind}
        if station is not None:
            whole.update(station=station, secret=secrets[station], ref=next(refs[station]) if ref is None else ref)
        whole.update(members)
        return json.dumps(whole, separators=(",", ":"))

    def scan(station, ballot, marks, **more):
        return ask("scan", station, ballot=ballot, marks=marks, **more)

    def phase(name):
        return '{"error":"phase","phase":"%s","status":409}' % name

    def fate(name):
        return '{"error":"fate","fate":"%s","status":409}' % name

    json_, shape = '{"error":"json","status":400}', '{"error":"shape","status":400}'
    ballot = '{"error":"ballot","status":404}'
    first = scan(0, 1, [[0, 0], [1, 2], [1, 0]])
    over = scan(0, 2, [[0, 0], [0, 1], [1, 1]])
    # Voting: each act, the same act again, and the same number for another act.
    yield first, '{"over":[],"status":200}'
    yield first, '{"over":[],"status":200}'
    yield first.replace('"marks":[[0,0],[1,2],[1,0]]', '"marks":[[0,0],[1,0],[1,2]]'), '{"error":"ref","kept":"scan 1 0:0 1:2 1:0","status":409}'
    yield over, '{"over":[0],"status":200}'
    yield scan(0, 3, []), '{"over":[],"status":200}'
    yield scan(1, 9, [[1, 0], [1, 1], [1, 2]]), '{"over":[1],"status":200}'
    spoil = ask("spoil", 0, ballot=4)
    yield spoil, OK
    yield spoil, OK
    yield spoil.replace('"spoil"', '"void"'), '{"error":"ref","kept":"spoil 4","status":409}'
    audit = ask("audit", 1, ballot=5, paper=papers[5])
    yield audit, '{"match":true,"status":200}'
    yield audit, '{"match":true,"status":200}'
    yield ask("void", 0, ballot=1), '{"error":"station","kept":0,"status":409}'
    yield ask("void", 1, ballot=3), OK
    # Other spellings of one ask.
    spoil = ask("spoil", 0, ballot=6)
    yield " { " + spoil[1:-1].replace(",", " ,\t").replace(":", " : ") + " } ", OK
    yield spoil.replace("spoil", "sp\\u006fil"), OK
    yield spoil[:-1] + ',"ref":%d}' % json.loads(spoil)["ref"], OK
    # No JSON.
    yield "", json_
    yield "{", json_
    yield first + "x", json_
    yield first.replace('"station":0', '"station":00'), json_
    yield first.replace('"station":0', '"station":+0'), json_
    yield first.replace('"station":0', '"station":1e400'), json_
    yield '{"ask":"\\ud800"}', json_
    yield "[" * 128 + "]" * 128, json_
    # No ask.
    yield "[" * 127 + "]" * 127, shape
    yield "1", shape
    yield "{}", shape
    yield '{"ask":"Totals"}', shape
    yield '{"ask":"totals","more":1}', shape
    yield '{"ask":"receipt"}', shape
    for wrong in ("1.0", "1e0", "-0", '"1"', "4294967296", "-1", "null"):
        yield '{"ask":"receipt","ballot":%s}' % wrong, shape
    yield ask("spoil", ballot=7), shape
    yield ask("spoil", 0, ref=77, ballot=7).replace(secrets[0], secrets[0].upper()), shape
    yield ask("spoil", 0, ref=77, ballot=7).replace(secrets[0], secrets[0][:30]), shape
    yield ask("scan", 0, ref=77, ballot=7, marks=[[0]]), shape
    yield ask("scan", 0, ref=77, ballot=7, marks=[[0, 0, 0]]), shape
    yield ask("audit", 0, ref=77, ballot=7, paper=[["101" if election.version == 2 else "8SS"]]), shape
    yield ask("draw", 0, ref=77, draw="0"), shape
    yield ask("draw", 0, ref=77, draw="FF"), shape
    yield ask("claim", 0, ref=77, ballot=7, race=0, code="67"), shape
    # Refusals of acts. Of two causes the first is told: the secret, the number, the phase, the ballot, its fate, the rest.
    yield ask("spoil", 0, ref=77, ballot=7).replace(secrets[0], secrets[1]), '{"error":"secret","status":403}'
    yield ask("spoil", 0, ref=77, ballot=7).replace('"station":0', '"station":2'), '{"error":"secret","status":403}'
    yield scan(0, 0, []), ballot
    yield scan(0, 11, [[9, 9]]), ballot
    yield ask("void", 0, ballot=11), ballot
    yield scan(0, 1, [[9, 9]]), fate("cast")
    yield scan(0, 3, []), fate("voided")
    yield ask("spoil", 0, ballot=4), fate("spoiled")
    yield ask("audit", 0, ballot=5, paper=[]), fate("audited")
    yield ask("void", 0, ballot=7), fate("unused")
    yield scan(0, 7, [[0, 0], [2, 0]]), '{"at":1,"error":"race","status":422}'
    yield scan(0, 10, [[1, 0], [0, 0]]), '{"at":1,"error":"race","status":422}'
    yield scan(0, 7, [[1, 2], [0, 2]]), '{"at":1,"error":"candidate","status":422}'
    yield scan(0, 7, [[0, 1], [1, 0], [0, 1]]), '{"at":2,"error":"twice","status":422}'
    yield scan(0, 7, [[0, 0], [0, 0], [0, 2], [2, 0]]), '{"at":3,"error":"race","status":422}'
    yield ask("audit", 0, ballot=7, paper=papers[7][:1]), '{"error":"paper","status":422}'
    yield ask("audit", 0, ballot=7, paper=[papers[7][0], papers[7][1][:2]]), '{"error":"paper","status":422}'
    yield ask("draw", 0, draw="full"), phase("voting")
    yield ask("draw", 0, draw=""), phase("voting")
    yield ask("claim", 0, ballot=99, race=9, code=papers[7][0][0]), phase("voting")
    yield ask("receipt", ballot=1), phase("voting")
    yield ask("receipt", ballot=99), phase("voting")
    yield ask("totals"), phase("voting")
    # A number is free again after a refusal.
    yield ask("spoil", 1, ref=500, ballot=6), fate("spoiled")
    yield ask("scan", 1, ref=500, ballot=7, marks=[[0, 1]]), '{"over":[],"status":200}'
    # The close, and what is answered after it.
    close = ask("close", 0)
    yield close, OK
    yield close, OK
    yield first, '{"over":[],"status":200}'
    yield ask("close", 1), phase("closed")
    yield scan(0, 8, []), phase("closed")
    yield ask("void", 1, ballot=1), phase("closed")
    yield ask("claim", 0, ballot=1, race=0, code=papers[1][0][0]), phase("closed")
    yield ask("receipt", ballot=0), ballot
    yield ask("receipt", ballot=11), ballot
    yield receipts(election, 1, {0: [0], 1: [0, 2]}, [])
    yield receipts(election, 2, {1: [1]}, [0])
    yield receipts(election, 9, {}, [1])
    for number, name in ((3, "voided"), (4, "spoiled"), (5, "audited"), (8, "unused")):
        yield ask("receipt", ballot=number), '{"ballot":%d,"codes":[],"fate":"%s","over":[],"status":200}' % (number, name)
    yield ask("totals"), '{"status":200,"totals":[[1,1],[1,1,1]]}'
    # The draw.
    yield ask("draw", 0, draw=""), '{"error":"draw","status":422}'
    yield ask("draw", 0, draw="00" * 4097), '{"error":"draw","status":422}'
    draw = ask("draw", 0, draw="4c6f7474657279")
    yield draw, OK
    yield draw, OK
    yield draw.replace("4c6f7474657279", "full"), '{"error":"ref","kept":"draw 4c6f7474657279","status":409}'
    yield ask("draw", 0, draw="full"), phase("drawn")
    # Claims.
    word = '{"status":200,"word":"%s"}'
    claim = ask("claim", 1, ballot=1, race=0, code=papers[1][0][0])
    absent = next(election.word(code) for code in range(9) if election.word(code) not in papers[1][0])
    yield claim, word % "posted"
    yield claim, word % "posted"
    yield ask("claim", 0, ballot=1, race=0, code=papers[1][0][0]), word % "posted"
    yield ask("claim", 0, ballot=1, race=0, code=papers[1][0][1]), word % "unposted"
    yield ask("claim", 0, ballot=1, race=0, code=absent), word % "absent"
    yield ask("claim", 0, ballot=2, race=0, code=papers[2][0][1]), word % "unposted"
    yield ask("claim", 0, ballot=8, race=1, code=papers[8][1][2]), word % "unposted"
    yield ask("claim", 0, ballot=11, race=9, code=absent), ballot
    yield ask("claim", 0, ballot=10, race=0, code=absent), '{"at":0,"error":"race","status":422}'
    yield ask("claim", 0, ballot=1, race=2, code=absent), '{"at":0,"error":"race","status":422}'
    yield scan(0, 8, []), phase("drawn")
    yield ask("totals"), '{"status":200,"totals":[[1,1],[1,1,1]]}'


def receipts(election, ballot, marks, over):
    """A look at a cast ballot: its posted codes stand in the order of the record, by race and column."""
    codes = []
    for race, candidates in sorted(marks.items()):
        table = election.tables[race]
        row = table.row[ballot]
        shown = table.shown[row * table.candidates : (row + 1) * table.candidates]
        codes += [[race, election.word(table.codes[row][j])] for j in shown if j in candidates]
    reply = {"ballot": ballot, "codes": codes, "fate": "cast", "over": over, "status": 200}
    return '{"ask":"receipt","ballot":%d}' % ballot, reply_text(reply)


# FILES


def files():
    """All files by name, but for the part of README.md that is written by hand."""
    for make in (good_records, word_records, plan_records, block_records, code_records, result_records, draw_records):
        make()
    for make in (path_records, print_records, dispute_records):
        make()
    found = {}
    for name, (_, text, report) in RECORDS.items():
        found["records/%s.record" % name] = text
        found["records/%s.report" % name] = report.encode()
    for version in (1, 2):
        for name, text in ask_case(version).items():
            found["asks/%d/%s" % (version, name)] = text.encode()
    found["README.md"] = readme().encode()
    return found


TABLE = "| Record | What it holds apart | Report |\n|---|---|---|\n"


def readme():
    """The page, with the table of records made anew."""
    with open(os.path.join(VECTORS, "README.md"), encoding="utf-8") as page:
        by_hand = page.read().split(TABLE)[0]
    rows = ["| `%s` | %s | `%s` |\n" % (name, what, report.split("\n")[0]) for name, (what, _, report) in RECORDS.items()]
    return by_hand + TABLE + "".join(rows)


def kept_names():
    for folder, _, names in os.walk(VECTORS):
        for name in names:
            yield os.path.relpath(os.path.join(folder, name), VECTORS)


def check(found):
    """Says what differs, and answers how much does."""
    differ = sorted(set(kept_names()) ^ set(found))
    for name in sorted(set(kept_names()) & set(found)):
        with open(os.path.join(VECTORS, name), "rb") as kept:
            if kept.read() != found[name]:
                differ.append(name)
    for name in differ:
        print("not as it is made: vectors/" + name)
    print("%d files, %d differ" % (len(found), len(differ)))
    return len(differ)


def write_stream(stream, reports):
    for name, (_, text, report) in RECORDS.items():
        stream.write(b"vectors/%s %d\n" % (name.encode(), len(text)) + text)
        reports.write("vectors/%s %d\n%s" % (name, 0 if report.startswith("yes") else 1, report))


def main():
    found = files()
    if sys.argv[1:] == ["check"]:
        sys.exit(1 if check(found) else 0)
    if sys.argv[1:2] == ["stream"]:
        with open(sys.argv[2], "wb") as stream, open(sys.argv[3], "w", encoding="ascii") as reports:
            write_stream(stream, reports)
        return
    for name in set(kept_names()) - set(found):
        os.remove(os.path.join(VECTORS, name))
    for name, text in found.items():
        os.makedirs(os.path.dirname(os.path.join(VECTORS, name)), exist_ok=True)
        with open(os.path.join(VECTORS, name), "wb") as out:
            out.write(text)
    print("%d files" % len(found))


if __name__ == "__main__":
    main()
