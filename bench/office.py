#!/usr/bin/env python3
"""An office of its own, in Python: what an election file, asks and a history give, by the rules of docs/OFFICE.md and docs/FORMAT.md.

    office.py do ELECTION < ASKS > REPLIES          answers each line
    office.py record ELECTION < ASKS > RECORD       what the office posts behind these asks
    office.py sheet ELECTION > SHEET                what the printer prints
    office.py openings ELECTION > OPENINGS          the openings of all rows, as a court is given them
    office.py totals ELECTION < ASKS                the votes of the cast ballots' marks, counted from the asks alone

It shares no line with the program: codes, orders, keys and coins are drawn by the ChaCha20 of record.py, digests by
hashlib, JSON by Python's json. It is for small elections, to compare with, and keeps nothing.
"""
import hashlib
import json
import sys

from record import Record, block, code_word, coins, commitment

SIGNS = "23456789ABCDEFGHJKLMNPQRSTUVWXYZ"
MOST_CLAIMS = 10000


class Stream:
    """The words of one stream of a seed."""

    def __init__(self, seed, purpose, race, index):
        self.seed, self.number, self.blocks = seed, (purpose << 48) + (race << 32) + index, {}

    def word(self, place):
        at = place // 16
        if at not in self.blocks:
            self.blocks[at] = block(self.seed, self.number, at)
        return self.blocks[at][place % 16]

    def order(self, count):
        return sorted(range(count), key=lambda x: (self.word(2 * x) << 32 | self.word(2 * x + 1), x))

    def key(self, item):
        return b"".join(self.word(4 * item + at).to_bytes(4, "big") for at in range(4))


def codes_of_row(stream, count, there_are):
    """So many different codes: each is the one in a place that is drawn among those not used yet."""
    used, found = [], []
    for at in range(count):
        code = stream.word(at) * (there_are - at) >> 32
        for other in sorted(used):
            if other <= code:
                code += 1
        used.append(code)
        found.append(code)
    return found


class Race:
    """The tables of a race: codes by ballot row and candidate, what each entry shows, paths, pointers and keys."""

    def __init__(self, election, number):
        seed, version = election.seed, election.version
        self.number, self.votes = number, election.races[number]["votes"]
        self.candidates = len(election.races[number]["candidates"])
        self.ballots = [b for b in election.ballots if number in election.races_of(b)]
        self.row = {ballot: at for at, ballot in enumerate(self.ballots)}
        count, rows = self.candidates, len(self.ballots)
        self.entries = rows * count
        there_are = 1000 if version == 1 else 32768
        self.codes = [codes_of_row(Stream(seed, 1, number, b), count, there_are) for b in range(rows)]
        self.shown = [c for b in range(rows) for c in Stream(seed, 2, number, b).order(count)]
        places = [Stream(seed, 3, number, j).order(rows) for j in range(count)]
        self.path = [places[j][q // count] * count + j for q, j in enumerate(self.shown)]
        self.keys = Stream(seed, 5, number, 0)
        self.instances = range(election.instances)
        self.lefts = [Stream(seed, 4, number, i).order(self.entries) for i in self.instances]
        self.left_keys = [Stream(seed, 6, number, i) for i in self.instances]
        self.right_keys = [Stream(seed, 7, number, i) for i in self.instances]

    def code(self, entry):
        return self.codes[entry // self.candidates][self.shown[entry]]

    def left(self, instance, row, entry):
        return "%s %d" % (self.left_keys[instance].key(row).hex(), entry)

    def right(self, instance, row, entry):
        return "%s %d" % (self.right_keys[instance].key(row).hex(), self.path[entry])


class Election:
    """An election file, and its tables."""

    def __init__(self, text):
        file = json.loads(text)
        self.plan, self.seed, self.secrets = file["plan"], bytes.fromhex(file["seed"]), file["secrets"]
        self.version, self.instances = self.plan["version"], self.plan["instances"]
        self.races, self.styles = self.plan["races"], self.plan["styles"]
        self.style = [run["style"] for run in self.plan["runs"] for _ in range(run["ballots"])]
        self.ballots = range(1, len(self.style) + 1)
        self.tables = [Race(self, number) for number in range(len(self.races))]

    def races_of(self, ballot):
        return self.styles[self.style[ballot - 1]]["races"]

    def word(self, code):
        return code_word(self.version, code)

    def paper(self, ballot):
        return [[self.word(c) for c in self.tables[r].codes[self.tables[r].row[ballot]]] for r in self.races_of(ballot)]

    def sheet(self):
        for ballot in self.ballots:
            yield "ballot %d %d" % (ballot, self.style[ballot - 1])
            for race, codes in zip(self.races_of(ballot), self.paper(ballot)):
                yield "codes %d %s" % (race, " ".join(codes))

    def openings(self):
        for table in self.tables:
            for instance in table.instances:
                for row, entry in enumerate(table.lefts[instance]):
                    yield "both %s %s" % (table.left(instance, row, entry), table.right(instance, row, entry))


def act_text(ask):
    kind, ballot = ask["ask"], ask.get("ballot")
    if kind == "scan":
        return " ".join(["scan %d" % ballot] + ["%d:%d" % tuple(mark) for mark in ask["marks"]])
    if kind == "audit":
        return "audit %d" % ballot + "".join(" " + ",".join(codes) for codes in ask["paper"])
    if kind == "draw":
        return "draw " + ask["draw"]
    if kind == "claim":
        return "claim %d %d %s" % (ballot, ask["race"], ask["code"])
    return kind if ballot is None else "%s %d" % (kind, ballot)


class Office:
    """What an office accepted, and what it answers."""

    def __init__(self, election):
        self.election, self.phase, self.draw = election, "voting", None
        self.fates, self.scanned_by, self.claims, self.done = {}, {}, [], {}

    # WHAT A BALLOT POSTS

    def void_races(self, ballot):
        marks = self.fates[ballot][1]
        return [r for r in self.election.races_of(ballot) if sum(m[0] == r for m in marks) > self.election.races[r]["votes"]]

    def marked(self, ballot, race):
        """The marked entries of a ballot in a race, by column."""
        fate = self.fates.get(ballot)
        if fate is None or fate[0] != "cast" or race in self.void_races(ballot):
            return []
        table, candidates = self.election.tables[race], [m[1] for m in fate[1] if m[0] == race]
        first = table.row[ballot] * table.candidates
        return [q for q in range(first, first + table.candidates) if table.shown[q] in candidates]

    def posted(self, ballot):
        word = self.election.word
        return [[r, word(self.election.tables[r].code(q))] for r in self.election.races_of(ballot) for q in self.marked(ballot, r)]

    def right_word(self, ballot, race, code):
        if [race, code] in self.posted(ballot):
            return "posted"
        return "unposted" if code in self.election.paper(ballot)[self.election.races_of(ballot).index(race)] else "absent"

    def places(self, race):
        table = self.election.tables[race]
        return {table.path[q] for ballot in table.ballots for q in self.marked(ballot, race)}

    def totals(self):
        tables = self.election.tables
        return [[sum(s % t.candidates == j for s in self.places(t.number)) for j in range(t.candidates)] for t in tables]

    # ANSWERS

    def fate(self, ballot):
        return self.fates[ballot][0] if ballot in self.fates else "unused"

    def refusal(self, ask):
        kind, phase, ballot = ask["ask"], self.phase, ask.get("ballot")
        wanted = {"draw": "closed", "claim": "drawn"}.get(kind, "voting")
        looks = kind in ("receipt", "totals")
        if (phase == "voting") if looks else (phase != wanted):
            return {"error": "phase", "phase": phase, "status": 409}
        if ballot is not None and ballot not in self.election.ballots:
            return {"error": "ballot", "status": 404}
        if kind in ("scan", "spoil", "audit") and ballot in self.fates or kind == "void" and self.fate(ballot) != "cast":
            return {"error": "fate", "fate": self.fate(ballot), "status": 409}
        if kind == "claim" and ask["race"] not in self.election.races_of(ballot):
            return {"at": 0, "error": "race", "status": 422}
        if kind == "void" and ask["station"] == self.scanned_by[ballot]:
            return {"error": "station", "kept": ask["station"], "status": 409}
        if kind == "scan":
            return self.bad_marks(ask["marks"], self.election.races_of(ballot))
        if kind == "audit" and [len(codes) for codes in ask["paper"]] != [len(codes) for codes in self.election.paper(ballot)]:
            return {"error": "paper", "status": 422}
        if kind == "draw" and ask["draw"] != "full" and not 1 <= len(ask["draw"]) // 2 <= 4096:
            return {"error": "draw", "status": 422}
        if kind == "claim" and len(self.claims) == MOST_CLAIMS:
            return {"error": "full", "limit": MOST_CLAIMS, "status": 409}
        return None

    def bad_marks(self, marks, races):
        tests = [
            ("race", lambda at: marks[at][0] not in races),
            ("candidate", lambda at: marks[at][1] >= len(self.election.races[marks[at][0]]["candidates"])),
            ("twice", lambda at: marks[at] in marks[:at]),
        ]
        for error, is_bad in tests:
            for at in range(len(marks)):
                if is_bad(at):
                    return {"at": at, "error": error, "status": 422}
        return None

    def accept(self, ask):
        kind, ballot = ask["ask"], ask.get("ballot")
        if kind == "scan":
            self.fates[ballot], self.scanned_by[ballot] = ("cast", ask["marks"]), ask["station"]
        elif kind in ("spoil", "void"):
            self.fates[ballot] = (kind.replace("spoil", "spoiled").replace("void", "voided"),)
        elif kind == "audit":
            self.fates[ballot] = ("audited", ask["paper"])
        elif kind == "close":
            self.phase = "closed"
        elif kind == "draw":
            self.phase, self.draw = "drawn", ask["draw"]
        elif kind == "claim":
            self.claims.append((ballot, ask["race"], ask["code"]))

    def body(self, ask):
        kind, ballot = ask["ask"], ask.get("ballot")
        if kind == "scan":
            races = [m[0] for m in ask["marks"]]
            over = [r for r in self.election.races_of(ballot) if races.count(r) > self.election.races[r]["votes"]]
            return {"over": over, "status": 200}
        if kind == "audit":
            return {"match": ask["paper"] == self.election.paper(ballot), "status": 200}
        if kind == "claim":
            return {"status": 200, "word": self.right_word(ballot, ask["race"], ask["code"])}
        if kind == "receipt":
            fate, is_cast = self.fate(ballot), self.fate(ballot) == "cast"
            codes, over = (self.posted(ballot), self.void_races(ballot)) if is_cast else ([], [])
            return {"ballot": ballot, "codes": codes, "fate": fate, "over": over, "status": 200}
        if kind == "totals":
            return {"status": 200, "totals": self.totals()}
        return {"status": 200}

    def answer(self, ask):
        """The reply to an ask that has its form."""
        if ask["ask"] in ("receipt", "totals"):
            return self.refusal(ask) or self.body(ask)
        secrets, stamp, text = self.election.secrets, (ask["station"], ask["ref"]), act_text(ask)
        if ask["station"] >= len(secrets) or secrets[ask["station"]] != ask["secret"]:
            return {"error": "secret", "status": 403}
        if stamp in self.done:
            return self.body(ask) if self.done[stamp] == text else {"error": "ref", "kept": self.done[stamp], "status": 409}
        refusal = self.refusal(ask)
        if refusal is not None:
            return refusal
        self.accept(ask)
        self.done[stamp] = text
        return self.body(ask)

    # THE RECORD

    def write(self, record):
        write_plan(record, self.election)
        write_commitments(record, self.election)
        if self.phase == "voting":
            return
        for ballot in sorted(self.fates):
            self.write_ballot(record, ballot)
        for table in self.election.tables:
            self.write_results(record, table)
        record.seal(2)
        if self.phase == "closed":
            return
        record.line("draw " + self.draw)
        for table in self.election.tables:
            for instance in table.instances:
                self.write_rows(record, table, instance)
        record.seal(3)
        for ballot, race, code in self.claims:
            record.line("dispute %d %d %s %s" % (ballot, race, code, self.right_word(ballot, race, code)))
            first = self.election.tables[race].row[ballot] * self.election.tables[race].candidates
            for entry in range(first, first + self.election.tables[race].candidates):
                self.write_code(record, race, entry)

    def write_code(self, record, race, entry):
        table = self.election.tables[race]
        key, word = table.keys.key(entry).hex(), self.election.word(table.code(entry))
        record.line("code %d %d %s %s" % (race, entry % table.candidates, key, word))

    def write_ballot(self, record, ballot):
        fate, races = self.fates[ballot], self.election.races_of(ballot)
        kind = "spoiled" if fate[0] == "voided" and self.election.version == 1 else fate[0]
        record.line("%s %d" % (kind, ballot))
        if fate[0] == "cast":
            for race in races:
                for entry in self.marked(ballot, race):
                    self.write_code(record, race, entry)
                if race in self.void_races(ballot):
                    record.line("over %d" % race)
        if fate[0] == "audited":
            for race, codes in zip(races, fate[1]):
                record.line("paper %d %s" % (race, " ".join(codes)))
            for race in races:
                table = self.election.tables[race]
                for column in range(table.candidates):
                    self.write_code(record, race, table.row[ballot] * table.candidates + column)

    def write_results(self, record, table):
        marked = {q for ballot in table.ballots for q in self.marked(ballot, table.number)}
        places = self.places(table.number)
        for instance in table.instances:
            record.bits("flags %d %d" % (table.number, instance), [q in marked for q in table.lefts[instance]])
        record.bits("places %d" % table.number, [s in places for s in range(table.entries)])
        for candidate in range(table.candidates):
            count = sum(s % table.candidates == candidate for s in places)
            record.line("total %d %d %d" % (table.number, candidate, count))

    def write_rows(self, record, table, instance):
        if self.draw != "full":
            key = hashlib.sha256(b"SC2COIN" + bytes.fromhex(self.draw)).digest()
            to_right = coins(key, table.number, instance, table.entries)
        for row, entry in enumerate(table.lefts[instance]):
            left, right = table.left(instance, row, entry), table.right(instance, row, entry)
            if self.draw == "full" or self.fate(table.ballots[entry // table.candidates]) == "audited":
                record.line("both %s %s" % (left, right))
            else:
                record.line("right " + right if to_right[row] else "left " + left)


def write_plan(record, election):
    record.line("scantegrity2 %d" % election.version)
    record.line("election " + election.plan["name"])
    record.line("instances %d" % election.instances)
    for race in election.races:
        record.line("race %s %d %d" % (race["name"], len(race["candidates"]), race["votes"]))
        for name in race["candidates"]:
            record.line("cand " + name)
    for style in election.styles:
        record.line("style %s %s" % (style["name"], " ".join(str(r) for r in style["races"])))
    for run in election.plan["runs"]:
        record.line("ballots %d %d" % (run["style"], run["ballots"]))


def write_commitments(record, election):
    for table in election.tables:
        for entry in range(table.entries):
            digest = commitment(b"Q", table.number, 0, entry, table.keys.key(entry), table.code(entry))
            record.line("code-commit %d %s" % (table.number, digest))
    for table in election.tables:
        for instance in table.instances:
            for row, entry in enumerate(table.lefts[instance]):
                left = commitment(b"L", table.number, instance, row, table.left_keys[instance].key(row), entry)
                right = commitment(b"R", table.number, instance, row, table.right_keys[instance].key(row), table.path[entry])
                record.line("row-commit %d %d %s %s" % (table.number, instance, left, right))
    record.seal(1)


MEMBERS = {
    "scan": ["ballot", "marks"],
    "spoil": ["ballot"],
    "void": ["ballot"],
    "audit": ["ballot", "paper"],
    "close": [],
    "draw": ["draw"],
    "claim": ["ballot", "race", "code"],
    "receipt": ["ballot"],
    "totals": [],
}


def is_number(value):
    return type(value) is int and value < 2**32


def is_hex(value):
    return type(value) is str and len(value) % 2 == 0 and set(value) <= set("0123456789abcdef")


def is_pair(value):
    return type(value) is list and len(value) == 2 and all(map(is_number, value))


def is_code(version, value):
    signs = "0123456789" if version == 1 else SIGNS
    return type(value) is str and len(value) == 3 and set(value) <= set(signs)


def has_form(version, ask):
    """Whether a JSON value is an ask."""
    kind = ask.get("ask") if type(ask) is dict else None
    if type(kind) is not str or kind not in MEMBERS:
        return False
    names = ["ask"] + MEMBERS[kind] + ([] if kind in ("receipt", "totals") else ["station", "secret", "ref"])
    tests = {
        "secret": lambda text: is_hex(text) and len(text) == 32,
        "draw": lambda text: text == "full" or is_hex(text),
        "code": lambda text: is_code(version, text),
        "marks": lambda list_: type(list_) is list and all(map(is_pair, list_)),
        "paper": lambda list_: type(list_) is list
        and all(type(codes) is list and all(is_code(version, code) for code in codes) for codes in list_),
        "ask": lambda text: True,
    }
    return sorted(ask) == sorted(names) and all(tests.get(name, is_number)(ask[name]) for name in names)


def no_number(text):
    raise ValueError(text)


def finite(text):
    value = float(text)
    if value in (float("inf"), float("-inf")):
        raise ValueError(text)
    return value


def depth(value):
    """How deep lists and objects nest."""
    inner = value.values() if type(value) is dict else value if type(value) is list else None
    return 0 if inner is None else 1 + max(map(depth, inner), default=0)


def json_of(line):
    """The JSON value of a line."""
    whole = lambda text: finite(text) if text.startswith("-") else int(finite(text) and text)
    value = json.loads(line.decode(), parse_int=whole, parse_float=finite, parse_constant=no_number)
    json.dumps(value, ensure_ascii=False).encode()  # half a surrogate pair has no bytes
    if depth(value) > 127:
        raise ValueError("depth")
    return value


def answer_line(office, line):
    """An ask, where the line is one, and what is answered."""
    try:
        ask = json_of(line)
    except (ValueError, RecursionError):
        return None, {"error": "json", "status": 400}
    if not has_form(office.election.version, ask):
        return None, {"error": "shape", "status": 400}
    return ask, office.answer(ask)


def votes(election, asks, replies):
    """The votes that accepted scans give, where they were not taken back: counted without any table."""
    counts = [[0] * len(race["candidates"]) for race in election.races]
    kept = {}
    for ask, reply in zip(asks, replies):
        if ask is not None and reply["status"] == 200 and ask["ask"] in ("scan", "void"):
            kept[ask["ballot"]] = ask["marks"] if ask["ask"] == "scan" else []
    for marks in kept.values():
        for race, candidate in marks:
            if sum(m[0] == race for m in marks) <= election.races[race]["votes"]:
                counts[race][candidate] += 1
    return counts


def main():
    command, election = sys.argv[1], Election(open(sys.argv[2], encoding="utf-8").read())
    office = Office(election)
    if command in ("sheet", "openings"):
        print("\n".join(getattr(election, command)()))
        return
    asks, replies = zip(*(answer_line(office, line) for line in sys.stdin.buffer))
    if command == "do":
        for reply in replies:
            print(json.dumps(reply, separators=(",", ":"), sort_keys=True))
    elif command == "record":
        office.write(Record(sys.stdout.buffer))
    elif command == "totals":
        for race, counts in enumerate(votes(election, asks, replies)):
            for candidate, count in enumerate(counts):
                print("total %d %d %d" % (race, candidate, count))


if __name__ == "__main__":
    main()
