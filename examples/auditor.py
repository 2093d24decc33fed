#!/usr/bin/env python3
"""An auditor of the public record of an election, for whoever has Python 3.7 or a later one.

    python3 examples/auditor.py < RECORD
    python3 examples/auditor.py --ballot 17 < RECORD

It writes what `voldkaumi audit` writes: `yes` and a line `total RACE CANDIDATE COUNT`
for each candidate, or the one line `no LINE KIND`: the number of the first bad line and
what is wrong there. The exit status is 0 for yes and 1 for no; 2 where the words behind
the name are wrong, 3 where the record could not be read, 4 where the report could not
be written, 9 where memory was wanted. With `--ballot N` it says, behind a yes, what the
record has of ballot N.

It was written from docs/FORMAT.md and needs nothing but Python's own library. Nothing
of it is proved: it is here to be read, and to be compared with. Each rule has behind it
in [brackets] the part of that page that states it; those of the kinds, as [path], stand
there in 'What an auditor judges'.

How it works: the lines are taken one after another. A line is taken first and judged
then, by what the lines before it have said; the first one that breaks a rule raises
`Bad` with the kind of the rule, and that is the verdict. Where a line may break several
rules they are tried in the order of the kinds.
"""

import hashlib
import os
import re
import struct
import sys

LONGEST_LINE = 16384  # no form of a line has more bytes
SIGNS = {1: "0123456789", 2: "23456789ABCDEFGHJKLMNPQRSTUVWXYZ"}  # of codes, by version


class Bad(Exception):
    """The line at hand is bad; the exception's text is the kind."""


def demand(holds, kind="form"):
    """The line at hand is bad, in this kind, where something does not hold."""
    if not holds:
        raise Bad(kind)


# Words and lines. A word's kind is a function: it answers what the word says, or the
# line is bad in form. [Letters and words]


def spelled(pattern):
    """The kind of the words that match a pattern as a whole."""
    matches = re.compile(pattern).fullmatch

    def kind(word):
        demand(matches(word))
        return word

    return kind


name = spelled("[!-~]{1,64}")
digest = spelled("[0-9a-f]{64}")
key = spelled("[0-9a-f]{32}")
bits = spelled("[01]{1,64}")
answer = spelled("posted|unposted|absent")
public_bytes = spelled("full|([0-9a-f]{2}){1,4096}")
digits = spelled("0|[1-9][0-9]{0,9}")
code_of = {version: spelled("[%s]{3}" % signs) for version, signs in SIGNS.items()}


def number(word):
    demand(int(digits(word)) < 2**32)
    return int(word)


def words_of(line):
    """The words of a line of ASCII that ends with a line feed and has one space between
    two words; none where it is no such line. [Lines]"""
    if not line.endswith(b"\n") or not line.isascii():
        return []
    words = line[:-1].decode("ascii").split(" ")
    return words if all(words) else []


def fields(words, head, *kinds):
    """What a line of this form says: its first words are those of the head, and each of
    the others is of its kind."""
    head = head.split(" ")
    demand(words[: len(head)] == head and len(words) == len(head) + len(kinds))
    return [kind(word) for kind, word in zip(kinds, words[len(head) :])]


class Lines:
    """The lines of a record, taken one after another."""

    def __init__(self, source):
        self.source = source
        self.number = 0  # of the line at hand, from 1
        self.line = b""  # the line at hand
        self.ahead = None  # the next line, where it was looked at
        self.before = hashlib.sha256()  # of all bytes before the line at hand

    def look(self):
        """The next line, which is not taken by this; no bytes where the record ends."""
        if self.ahead is None:
            self.ahead = self.source.readline(LONGEST_LINE + 1)
        return self.ahead

    def next_is(self, *heads):
        """Whether the next line's first word is one of these."""
        return (words_of(self.look()) or [""])[0] in heads

    def take(self):
        """Goes on to the next line and answers its words. Behind the last line there is
        one without words: so a record that ends too early is bad at that number."""
        self.before.update(self.line)
        self.line, self.ahead = self.look(), None
        self.number += 1
        return words_of(self.line)


# What the lines have said so far.


class Race:
    def __init__(self, title, candidate_count, votes):
        self.title = title
        self.k = candidate_count  # K: how many candidates there are, and so columns
        self.votes = votes  # W: how many of them a voter may mark
        self.candidates = []
        self.ballot_rows = 0  # how many ballots have this race
        self.code_commits = []  # by entry
        self.row_commits = []  # by instance and row: the left one's and the right one's
        self.codes = {}  # entry -> its code, where a `code` line told it
        self.holders = {}  # ballot row and code -> the entry that has this code
        self.marked = set()  # entries with a code in the block of a cast ballot
        self.audited = set()  # entries of audited ballots
        self.papers = {}  # ballot row -> the codes read from the paper, by candidate
        self.flags = []  # by instance: n signs 0 or 1, by row
        self.places = ""  # n signs 0 or 1, by place
        self.totals = []  # by candidate
        self.led = {}  # entry -> the place to which a row leads it
        self.reached = {}  # ballot row and candidate -> the entry that is led there

    def n(self):  # entries, places, and rows of each instance
        return self.k * self.ballot_rows


class Ballot:
    def __init__(self, style):
        self.style = style  # its name
        self.rows = {}  # race -> the ballot's row in it
        self.fate = "unused"
        self.shown = {}  # race -> the codes of the ballot's block, by column
        self.over = set()  # races with too many marks
        self.disputes = []  # race, code and answer of each


class Record:
    def __init__(self):
        self.version = self.instances = 0
        self.code = None  # the kind of a code in this version
        self.races = []
        self.styles = []  # name and races of each
        self.ballots = []
        self.draw = ""  # `full` or the public bytes


# Section 1: the plan and the commitments. [The four sections]


def read_plan(lines, record):
    """A line that breaks a limit of the plan is bad in form. [form]"""
    [record.version] = fields(lines.take(), "scantegrity2", number)
    demand(record.version in (1, 2))
    record.code = code_of[record.version]
    fields(lines.take(), "election", name)
    [record.instances] = fields(lines.take(), "instances", number)
    demand(1 <= record.instances <= 16)
    for head, read in ("race", read_race), ("style", read_style), ("ballots", read_run):
        read(lines, record)
        while lines.next_is(head):
            read(lines, record)


def read_race(lines, record):
    title, k, votes = fields(lines.take(), "race", name, number, number)
    demand(len(record.races) < 32)
    demand(title not in [race.title for race in record.races])
    demand(2 <= k <= 16 and 1 <= votes <= k)
    race = Race(title, k, votes)
    for _ in range(k):
        [candidate] = fields(lines.take(), "cand", name)
        demand(candidate not in race.candidates)
        race.candidates.append(candidate)
    record.races.append(race)


def read_style(lines, record):
    words = lines.take()
    demand(len(words) >= 3 and words[0] == "style")
    title, races = name(words[1]), [number(word) for word in words[2:]]
    demand(len(record.styles) < 32)
    demand(title not in [other for other, _ in record.styles])
    demand(all(a < b for a, b in zip(races, races[1:])))
    demand(races[-1] < len(record.races))
    record.styles.append((title, races))


def read_run(lines, record):
    style, count = fields(lines.take(), "ballots", number, number)
    demand(style < len(record.styles))
    demand(1 <= count <= 20000 - len(record.ballots))
    title, races = record.styles[style]
    for _ in range(count):
        ballot = Ballot(title)
        for r in races:
            ballot.rows[r] = record.races[r].ballot_rows
            record.races[r].ballot_rows += 1
        record.ballots.append(ballot)
    demand(sum(record.instances * race.n() for race in record.races) <= 200000)


def read_commitments(lines, record):
    for r, race in enumerate(record.races):
        for _ in range(race.n()):
            race.code_commits += fields(lines.take(), f"code-commit {r}", digest)
    for r, race in enumerate(record.races):
        for i in range(record.instances):
            head = f"row-commit {r} {i}"
            rows = [fields(lines.take(), head, digest, digest) for _ in range(race.n())]
            race.row_commits.append(rows)


def read_seal(lines, which):
    """A seal is the digest of all bytes before its line. [seal]"""
    [seal] = fields(lines.take(), f"seal {which}", digest)
    demand(seal == lines.before.hexdigest(), "seal")


def opens(commitment, letter, r, i, place, secret, value):
    """Whether a key and a value open a commitment. [Commitments and seals]"""
    secret = bytes.fromhex(secret)
    committed = struct.pack(">cHHI16sI", letter, r, i, place, secret, value)
    return hashlib.sha256(committed).hexdigest() == commitment


# Section 2: the ballots' blocks. [The block of a ballot]
def read_blocks(lines, record):
    last = 0
    while lines.next_is("cast", "spoiled", "voided", "audited"):
        words = lines.take()
        [b] = fields(words, words[0], number)
        demand(last < b <= len(record.ballots))
        demand(words[0] != "voided" or record.version == 2)
        ballot = record.ballots[b - 1]
        ballot.fate = words[0]
        if ballot.fate == "cast":
            read_cast(lines, record, ballot)
        if ballot.fate == "audited":
            read_audited(lines, record, ballot)
        last = b


def read_cast(lines, record, ballot):
    """Races don't fall, and columns rise in each; `over` counts as a last column."""
    last = (0, -1)
    while lines.next_is("code", "over"):
        words = lines.take()
        if words[0] == "code":
            r, c, secret, code = code_line(words, record, ballot)
        else:
            [r], c = fields(words, "over", number), 16
            demand(r in ballot.rows)
        demand(last < (r, c))
        last = (r, c)
        shown = ballot.shown.setdefault(r, {})
        if words[0] == "code":
            entry = judge_code(record, ballot, r, c, secret, code)
            demand(len(shown) < record.races[r].votes, "rule")  # [rule]
            record.races[r].marked.add(entry)
            shown[c] = code
        else:
            demand(not shown, "rule")  # [rule]
            ballot.over.add(r)


def read_audited(lines, record, ballot):
    for r, row in ballot.rows.items():
        race = record.races[r]
        paper = fields(lines.take(), f"paper {r}", *[record.code] * race.k)
        demand(len(set(paper)) == race.k, "rule")  # [rule]
        race.papers[row] = paper
    for r in ballot.rows:
        ballot.shown[r] = {}
        for c in range(record.races[r].k):
            entry, code = due_code(lines, record, ballot, r, c)
            record.races[r].audited.add(entry)
            ballot.shown[r][c] = code


def code_line(words, record, ballot):
    """A `code` line tells the code of an entry of the ballot, and the key to it."""
    r, c, secret, code = fields(words, "code", number, number, key, record.code)
    demand(r in ballot.rows and c < record.races[r].k)
    return r, c, secret, code


def due_code(lines, record, ballot, r, c):
    """The `code` line of just this race and column: its entry and its code."""
    *place, secret, code = code_line(lines.take(), record, ballot)
    demand(place == [r, c])
    return judge_code(record, ballot, r, c, secret, code), code


def judge_code(record, ballot, r, c, secret, code):
    """Judges a code as far as each `code` line is judged, and answers its entry: entry c
    of ballot row b is b * K + c. [What the tables are for]"""
    race, row = record.races[r], ballot.rows[r]
    entry = row * race.k + c
    value, signs = 0, SIGNS[record.version]
    for sign in code:  # each sign is a digit, the highest first [Letters and words]
        value = value * len(signs) + signs.index(sign)
    good = opens(race.code_commits[entry], b"Q", r, 0, entry, secret, value)
    demand(good, "opening")
    demand(race.holders.setdefault((row, code), entry) == entry, "rule")
    demand(race.codes.setdefault(entry, code) == code, "rule")
    return entry


# Section 2: flags, places and totals. [The four sections]
def read_results(lines, record):
    for r, race in enumerate(record.races):
        for i in range(record.instances):
            race.flags.append(read_bits(lines, f"flags {r} {i}", race.n()))
        race.places = read_bits(lines, f"places {r}", race.n())
        for j in range(race.k):
            [total] = fields(lines.take(), f"total {r} {j}", number)
            # Place s is a vote for candidate s mod K. [total]
            demand(total == race.places[j :: race.k].count("1"), "total")
            race.totals.append(total)


def read_bits(lines, head, n):
    """n bits stand on lines of 64, and the last line has the rest. [The four sections]"""
    read = ""
    while len(read) < n:
        [more] = fields(lines.take(), head, bits)
        demand(len(more) == min(64, n - len(read)))
        read += more
    return read


# Section 3: the draw, and the rows that it opens. [The four sections]
def read_rows(lines, record):
    for r, race in enumerate(record.races):
        for i in range(record.instances):
            instance = Instance(record, r, i)
            for row in range(race.n()):
                instance.judge(lines.take(), row)


class Instance:
    """An instance of a race, while its rows are read."""

    def __init__(self, record, r, i):
        self.r, self.i, self.race = r, i, record.races[r]
        self.is_full = record.draw == "full"
        self.coins = None if self.is_full else coins(record.draw, r, i)
        self.lefts, self.rights = set(), set()  # the pointers opened on each side so far
        self.both_count = 0  # how many rows are opened on both sides so far

    def judge(self, words, row):
        """The kinds that a row may be bad in, in their order. [What an auditor judges]"""
        left, right = self.form(words)
        entry = left and left[1]
        place = right and right[1]
        is_both = bool(left and right)
        self.opening(row, left, right)
        self.side(left, right)
        self.pointer(entry, self.lefts)
        self.pointer(place, self.rights)
        self.flag(row, entry, place)
        if is_both:
            self.path(entry, place)
        self.prints(row, entry, place, is_both)

    def form(self, words):
        """A row's left opening and its right one: each a key and a pointer, or none."""
        if words[:1] == ["both"]:
            opened = fields(words, "both", key, number, key, number)
            return opened[:2], opened[2:]
        if words[:1] == ["left"]:
            return fields(words, "left", key, number), None
        return None, fields(words, "right", key, number)

    def opening(self, row, *sides):
        """Each key and pointer opens the row's commitment. [opening]"""
        commitments = self.race.row_commits[self.i][row]
        for letter, commitment, opened in zip((b"L", b"R"), commitments, sides):
            if opened:
                good = opens(commitment, letter, self.r, self.i, row, *opened)
                demand(good, "opening")

    def side(self, left, right):
        """With `draw full` both sides are opened; else both, or the side of the row's
        coin: 0 for the left one, 1 for the right one. [side]"""
        coin = None if self.is_full else next(self.coins)
        demand((left or coin == 1) and (right or coin == 0), "side")

    def pointer(self, pointer, earlier):
        """A pointer is below n, and no earlier row of the instance has it on its side.
        [pointer]"""
        if pointer is not None:
            demand(pointer < self.race.n() and pointer not in earlier, "pointer")
            earlier.add(pointer)

    def flag(self, row, entry, place):
        """A row is flagged where its entry is marked, and where its place is set.
        [flag]"""
        is_flagged = self.race.flags[self.i][row] == "1"
        if entry is not None:
            demand(is_flagged == (entry in self.race.marked), "flag")
        if place is not None:
            demand(is_flagged == (self.race.places[place] == "1"), "flag")

    def path(self, entry, place):
        """In all instances an entry is led to one place, and no two entries of a ballot
        to one candidate. [path]"""
        race = self.race
        demand(race.led.setdefault(entry, place) == place, "path")
        candidate = (entry // race.k, place % race.k)
        demand(race.reached.setdefault(candidate, entry) == entry, "path")

    def prints(self, row, entry, place, is_both):
        """With public bytes just the rows of audited ballots' entries are opened on both
        sides, at the last row as many as there are such entries; and with either draw the
        paper has the code of each beside the candidate of its place. [print]"""
        race = self.race
        self.both_count += is_both
        if not self.is_full:
            demand(entry is None or is_both == (entry in race.audited), "print")
            if row + 1 == race.n():
                demand(self.both_count == len(race.audited), "print")
        if is_both and entry in race.audited:
            paper = race.papers[entry // race.k]
            demand(paper[place % race.k] == race.codes[entry], "print")


def coins(public, r, i):
    """The coins of an instance's rows, one after another: the lowest bits of the words of
    a stream of ChaCha20. [The draw and its coins]"""
    secret = hashlib.sha256(b"SC2COIN" + bytes.fromhex(public)).digest()
    counter = 0
    while True:
        for word in chacha20_block(secret, counter, r * 2**32 + i):
            yield word & 1
        counter += 1


def chacha20_block(secret, counter, stream):
    """The 16 words of a block (RFC 8439, 2.3); words 12 and 13 of its state are the
    counter, 14 and 15 the stream's number, the low words first. [The draw and its coins]"""
    state = b"expand 32-byte k" + secret + struct.pack("<QQ", counter, stream)
    start = struct.unpack("<16I", state)
    x = list(start)
    for _ in range(10):
        for a in range(4):
            quarter_round(x, a, 4 + a, 8 + a, 12 + a)
        for a in range(4):
            quarter_round(x, a, 4 + (a + 1) % 4, 8 + (a + 2) % 4, 12 + (a + 3) % 4)
    return [(a + b) & 0xFFFFFFFF for a, b in zip(x, start)]


def quarter_round(x, a, b, c, d):
    """Four times: an addition, an exclusive or, and a turn to the left (RFC 8439, 2.1)."""
    for p, q, s, turn in (a, b, d, 16), (c, d, b, 12), (a, b, d, 8), (c, d, b, 7):
        x[p] = (x[p] + x[q]) & 0xFFFFFFFF
        word = x[s] ^ x[p]
        x[s] = (word << turn | word >> (32 - turn)) & 0xFFFFFFFF


# Section 4: disputes. [The four sections]
def read_disputes(lines, record):
    """The record may end behind the last seal, or behind any dispute's block."""
    count = 0
    while lines.look():
        words = lines.take()
        demand(count < 10000)
        read_dispute(lines, record, words)
        count += 1


def read_dispute(lines, record, words):
    b, r, claimed, told = fields(words, "dispute", number, number, record.code, answer)
    demand(1 <= b <= len(record.ballots) and r in record.ballots[b - 1].rows)
    ballot = record.ballots[b - 1]
    codes = [due_code(lines, record, ballot, r, c)[1] for c in range(record.races[r].k)]
    posted = ballot.shown.get(r, {}).values() if ballot.fate == "cast" else []
    right = "posted" if claimed in posted else "unposted" if claimed in codes else "absent"
    demand(told == right, "dispute")  # at the last code of the block [dispute]
    ballot.disputes.append((r, claimed, told))


# The verdict, and what is written. [The report]


def audit(source):
    """The report on a record, its exit status, and what the lines have said."""
    lines, record = Lines(source), Record()
    try:
        read_plan(lines, record)
        read_commitments(lines, record)
        read_seal(lines, 1)
        read_blocks(lines, record)
        read_results(lines, record)
        read_seal(lines, 2)
        [record.draw] = fields(lines.take(), "draw", public_bytes)
        read_rows(lines, record)
        read_seal(lines, 3)
        read_disputes(lines, record)
    except Bad as kind:
        return f"no {lines.number} {kind}\n", 1, record
    report = "yes\n"
    for r, race in enumerate(record.races):
        report += "".join(f"total {r} {j} {total}\n" for j, total in enumerate(race.totals))
    return report, 0, record


NOTHING = "Of the ballot nothing is said, as the record is not good.\n"
FATES = {
    "unused": "it was not used, and nothing is posted of it",
    "cast": "it was cast; these codes are posted",
    "spoiled": "it was spoiled, or its scan was taken back; it counts for nobody",
    "voided": "its scan was taken back; it counts for nobody",
    "audited": "its print was audited; it counts for nobody",
}


def tell_ballot(record, b):
    """What a good record has of a ballot, in plain words."""
    if not 1 <= b <= len(record.ballots):
        return f"The record has no ballot {b}: they are 1 to {len(record.ballots)}.\n"
    ballot = record.ballots[b - 1]
    told = [f"Ballot {b} (style {ballot.style}): {FATES[ballot.fate]}."]
    for r in ballot.rows:
        if ballot.fate in ("cast", "audited"):
            told += tell_race(record.races[r], ballot, r)
    for r, code, answered in ballot.disputes:
        told.append(f"A dispute of code {code} in race {r} was answered: {answered}.")
    return "\n".join(told) + "\n"


def tell_race(race, ballot, r):
    head = f"Race {r} ({race.title})"
    if ballot.fate == "audited":
        paper = zip(race.papers[ballot.rows[r]], race.candidates)
        read = ", ".join(f"{code} beside {candidate}" for code, candidate in paper)
        yield f"{head}: the paper had {read}."
    for c, code in ballot.shown.get(r, {}).items():
        yield f"{head}, column {c}: code {code}."
    if r in ballot.over:
        yield f"{head}: too many marks, so none counts and no code is posted."
    elif not ballot.shown.get(r):
        yield f"{head}: no code is posted."


def fail(status, why):
    print(why, file=sys.stderr)
    return status


def main(words):
    try:
        demand(not words or len(words) == 2 and words[0] == "--ballot")
        asked = number(words[1]) if words else None
    except Bad:
        return fail(2, "use: auditor.py [--ballot N] < RECORD")
    try:
        with open(0, "rb", closefd=False) as source:
            report, status, record = audit(source)
    except OSError as cause:
        return fail(3, f"the record could not be read: {cause}")
    if asked is not None:
        report += tell_ballot(record, asked) if status == 0 else NOTHING
    try:
        while report:
            report = report[os.write(1, report.encode("ascii")) :]
    except OSError as cause:
        return fail(4, f"the report could not be written: {cause}")
    return status


if __name__ == "__main__":
    try:
        sys.exit(main(sys.argv[1:]))
    except MemoryError:
        sys.exit(9)
