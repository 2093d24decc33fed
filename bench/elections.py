#!/usr/bin/env python3
"""Runs elections that are made up through the built program, and compares with an office of its own.

    elections.py PROGRAM [COUNT] [SEED]

Each election has a plan, a seed, secrets and asks drawn from SEED: one to three races, one to three styles, both
versions, all fates, races with too many marks, both draws, claims of all three answers, asks that come twice and asks
that are refused. The program sets the office up in an empty folder, prints the sheet, answers the asks, writes the record
and audits it. What must hold: the sheet, the replies and the record are those of office.py, byte for byte; the verdict is
yes; and the totals are the votes counted from the marks alone. Then one word of the record is changed, and the seals are
made anew: the verdict is no, unless the word belongs to a commitment that nobody opened, and then it is yes with the same
totals. Ends with status 1 at the first difference, and leaves its folder.
"""
import hashlib
import json
import os
import random
import subprocess
import sys
import tempfile

from office import Election, Office, answer_line, votes
from record import Record

NAMES = "Ada Ben Cy Dan Eve Fay Gus Hal Ida Jo Kim Lea Max Nan Oz Pam".split()


class Text:
    """A record that is kept."""

    def __init__(self):
        self.bytes = bytearray()

    def write(self, data):
        self.bytes += data


def random_plan(draw, number):
    races = []
    for at in range(draw.randint(1, 3)):
        count = draw.randint(2, 5)
        races.append({"name": "race%d" % at, "candidates": draw.sample(NAMES, count), "votes": draw.randint(1, count)})
    styles = []
    for at in range(draw.randint(1, 3)):
        chosen = sorted(draw.sample(range(len(races)), draw.randint(1, len(races))))
        styles.append({"name": "style%d" % at, "races": chosen})
    runs = [{"style": draw.randrange(len(styles)), "ballots": draw.randint(1, 6)} for _ in range(draw.randint(1, 4))]
    return {
        "version": draw.randint(1, 2),
        "name": "made-up-%d" % number,
        "instances": draw.randint(1, 3),
        "races": races,
        "styles": styles,
        "runs": runs,
    }


def random_file(draw, number):
    hexadecimal = lambda count: draw.randbytes(count).hex()
    secrets = [hexadecimal(16) for _ in range(draw.randint(2, 3))]
    return {"plan": random_plan(draw, number), "seed": hexadecimal(32), "secrets": secrets}


def random_marks(draw, election, ballot):
    every = [[r, j] for r in election.races_of(ballot) for j in range(len(election.races[r]["candidates"]))]
    return draw.sample(every, draw.randint(0, len(every)))


def random_paper(draw, election, ballot):
    paper = election.paper(ballot)
    if draw.random() < 0.1:
        paper[0][0], paper[0][1] = paper[0][1], paper[0][0]
    return paper


def of_a_ballot(draw, election, ballot, station):
    """What becomes of a ballot: asks without their stamps, each with its station."""
    scan = {"ask": "scan", "ballot": ballot, "marks": random_marks(draw, election, ballot)}
    other = (station + 1) % len(election.secrets)
    kind = draw.choices(["cast", "spoil", "audit", "void", "unused", "bad"], [8, 2, 2, 2, 2, 1])[0]
    if kind == "cast":
        return [(station, scan)]
    if kind == "spoil":
        return [(station, {"ask": "spoil", "ballot": ballot}), (other, scan)]
    if kind == "audit":
        return [(station, {"ask": "audit", "ballot": ballot, "paper": random_paper(draw, election, ballot)})]
    if kind == "void":
        void = {"ask": "void", "ballot": ballot}
        return [(station, scan), (station, void), (other, void)]
    if kind == "bad":
        return [(station, {"ask": "scan", "ballot": ballot, "marks": [[31, 0]]})]
    return []


def random_claim(draw, election):
    ballot = draw.choice(election.ballots)
    race = draw.choice(election.races_of(ballot))
    codes = election.paper(ballot)[election.races_of(ballot).index(race)]
    return {"ask": "claim", "ballot": ballot, "race": race, "code": draw.choice(codes + ["222"])}


def random_asks(draw, election):
    asks = []
    for ballot in draw.sample(election.ballots, len(election.ballots)):
        asks += of_a_ballot(draw, election, ballot, draw.randrange(len(election.secrets)))
    asks += [(0, {"ask": "totals"}), (0, {"ask": "close"}), (0, {"ask": "totals"})]
    asks += [(0, {"ask": "receipt", "ballot": draw.choice(election.ballots)})]
    public = draw.randbytes(draw.randint(1, 40)).hex()
    asks += [(0, {"ask": "draw", "draw": draw.choice(["full", public])})]
    asks += [(draw.randrange(len(election.secrets)), random_claim(draw, election)) for _ in range(draw.randint(0, 4))]
    stamped = []
    for ref, (station, ask) in enumerate(asks):
        if ask["ask"] not in ("totals", "receipt"):
            ask = dict(ask, station=station, secret=election.secrets[station], ref=ref)
        stamped += [ask] * (2 if draw.random() < 0.1 else 1)
    return stamped


# THE PROGRAM


def run(program, word, given=b""):
    done = subprocess.run([program, word], input=given, capture_output=True, check=False)
    return done.returncode, done.stdout


def must(holds, what):
    if not holds:
        print("differs: %s, in %s" % (what, os.getcwd()))
        sys.exit(1)


def honest(program, file, asks):
    """One election through the program: its record and the report of the audit."""
    election = Election(json.dumps(file))
    office, lines = Office(election), [(json.dumps(ask) + "\n").encode() for ask in asks]
    replies = [answer_line(office, line)[1] for line in lines]
    text = Text()
    office.write(Record(text))
    must(run(program, "init", json.dumps(file).encode()) == (0, b"begun\n"), "init")
    must(run(program, "sheet") == (0, "".join(line + "\n" for line in election.sheet()).encode()), "sheet")
    expected = "".join(json.dumps(reply, separators=(",", ":"), sort_keys=True) + "\n" for reply in replies)
    must(run(program, "do", b"".join(lines)) == (0, expected.encode()), "do")
    must(run(program, "record") == (0, bytes(text.bytes)), "record")
    status, report = run(program, "audit", bytes(text.bytes))
    honest_papers = all(reply.get("match", True) for reply in replies)
    if honest_papers:
        counts = votes(election, asks, replies)
        totals = ["total %d %d %d" % (r, j, n) for r, row in enumerate(counts) for j, n in enumerate(row)]
        must((status, report.decode().split("\n")) == (0, ["yes"] + totals + [""]), "audit")
    else:
        must(status == 1 and report.endswith(b" print\n"), "audit of a paper that differs")
    return bytes(text.bytes), report, honest_papers


# ONE WORD CHANGED


def sealed(lines):
    """The lines as bytes, each seal made anew."""
    whole = Text()
    record = Record(whole)
    for line in lines:
        if line.startswith("seal "):
            record.seal(int(line[5]))
        else:
            record.line(line)
    return bytes(whole.bytes)


def other_word(draw, word):
    """Another word of the same form."""
    at = draw.randrange(len(word))
    if len(word) < 32:
        return str(int(word) + 1)
    return word[:at] + draw.choice([c for c in "0123456789abcdef" if c != word[at]]) + word[at + 1 :]


def other_bits(draw, word):
    """The same bits but one."""
    at = draw.randrange(len(word))
    return word[:at] + ("0" if word[at] == "1" else "1") + word[at + 1 :]


PLACES = {
    "code-commit": [2],
    "row-commit": [3, 4],
    "code": [3],
    "flags": [3],
    "places": [2],
    "total": [3],
    "left": [1, 2],
    "right": [1, 2],
    "both": [1, 2, 3, 4],
}


def changed_line(draw, lines):
    """A line with one word changed, and where it stands: each kind of line is as likely as another."""
    kind = draw.choice(sorted(set(line.split(" ")[0] for line in lines) & set(PLACES)))
    at = draw.choice([at for at, line in enumerate(lines) if line.split(" ")[0] == kind])
    place, words = draw.choice(PLACES[kind]), lines[at].split(" ")
    words[place] = (other_bits if kind in ("flags", "places") else other_word)(draw, words[place])
    return at, place, " ".join(words)


def is_unopened(lines, at, place):
    """Whether a word is a commitment that no line opens."""
    words = lines[at].split(" ")
    if words[0] == "code-commit":
        race = [line for line in lines if line.startswith("code-commit %s " % words[1])]
        return race.index(lines[at]) not in opened_entries(lines, int(words[1]))
    if words[0] != "row-commit":
        return False
    head = [line for line in lines if line.startswith("row-commit ")]
    rows = [line for line in lines if line.split(" ")[0] in ("left", "right", "both")]
    opened = rows[head.index(lines[at])].split(" ")[0]
    return opened not in (("left" if place == 3 else "right"), "both")


def opened_entries(lines, race):
    """The entries of a race whose codes stand in the record."""
    candidates, rows, ballot, opened = [], {}, None, set()
    races_of_style, styles = [], []
    for line in lines:
        words = line.split(" ")
        if words[0] == "race":
            candidates.append(int(words[2]))
        elif words[0] == "style":
            races_of_style.append([int(r) for r in words[2:]])
        elif words[0] == "ballots":
            styles += [int(words[1])] * int(words[2])
        elif words[0] in ("cast", "audited", "dispute"):
            ballot = int(words[1])
        elif words[0] == "code" and int(words[1]) == race:
            row = sum(race in races_of_style[style] for style in styles[: ballot - 1])
            opened.add(row * candidates[race] + int(words[2]))
    return opened


def altered(draw, program, text, report):
    """The answer to a record with one word changed."""
    lines = text.decode().split("\n")[:-1]
    at, place, line = changed_line(draw, lines)
    unopened = is_unopened(lines, at, place)
    status, answer = run(program, "audit", sealed(lines[:at] + [line] + lines[at + 1 :]))
    if unopened:
        must((status, answer) == (0, report), "audit of an unopened commitment changed, line %d" % (at + 1))
        return "yes"
    must(status == 1, "audit of a word changed, line %d word %d" % (at + 1, place))
    return answer.split()[2].decode()


def main():
    program = os.path.realpath(sys.argv[1])
    count = int(sys.argv[2]) if len(sys.argv) > 2 else 200
    draw = random.Random(int(sys.argv[3]) if len(sys.argv) > 3 else 1)
    found = {}
    for number in range(count):
        folder = tempfile.mkdtemp()
        os.chdir(folder)
        file = random_file(draw, number)
        text, report, honest_papers = honest(program, file, random_asks(draw, Election(json.dumps(file))))
        what = altered(draw, program, text, report) if honest_papers else "paper"
        found[what] = found.get(what, 0) + 1
        for name in os.listdir("."):
            os.remove(name)
        os.chdir("/")
        os.rmdir(folder)
    print("%d elections as they must be; one word changed: %s" % (count, json.dumps(found, sort_keys=True)))


if __name__ == "__main__":
    main()
