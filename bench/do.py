"""Scans of an election as asks, and the same work in Python: json, the office's rules for scans, and sqlite3 with the same
statements, write-ahead log and full sync, in ./office.db.

    do.py election BALLOTS          writes an election file of so many ballots: 20,000 have 200,000 rows
    do.py asks BALLOTS              writes a scan of each ballot, one a line
    do.py plain BALLOTS             writes an election file of one race, as `measures post` posts it: 20,000 have 200,000 rows
    do.py votes BALLOTS             writes a scan of each ballot of that one, and then the close and the draw
    do.py file BALLOTS              writes the same scans as a scanner's file
    do.py do ELECTION < ASKS        sets an office.db up and answers the asks
"""
import json
import sys

from store import opened

SECRETS = ["%032x" % at for at in (1, 2)]


def election(ballots):
    races = [
        {"name": "Mayor", "candidates": ["Ada", "Ben", "Cy"], "votes": 1},
        {"name": "Council", "candidates": ["Dan", "Eve", "Fay", "Gus", "Hal", "Ida", "Jo"], "votes": 2},
    ]
    styles, runs = [{"name": "All", "races": [0, 1]}], [{"style": 0, "ballots": ballots}]
    plan = {"version": 1, "name": "Timed", "instances": 1, "races": races, "styles": styles, "runs": runs}
    return {"plan": plan, "seed": "%064x" % 7, "secrets": SECRETS}


def plain(ballots):
    races, runs = [{"name": "R", "candidates": ["A", "B"], "votes": 1}], [{"style": 0, "ballots": ballots}]
    plan = {"version": 1, "name": "E", "instances": 5, "races": races, "styles": [{"name": "S", "races": [0]}], "runs": runs}
    return {"plan": plan, "seed": "%064x" % 7, "secrets": SECRETS}


def votes(ballots):
    by = {"station": 0, "secret": SECRETS[0]}
    for ballot in range(1, ballots + 1):
        yield {"ask": "scan", **by, "ref": ballot, "ballot": ballot, "marks": [[0, ballot % 2]]}
    yield {"ask": "close", **by, "ref": 0}
    yield {"ask": "draw", **by, "ref": ballots + 1, "draw": "00ff"}


def asks(ballots):
    for ballot in range(1, ballots + 1):
        marks = [[0, ballot % 3], [1, ballot % 7], [1, (ballot + 1) % 7]]
        station = ballot % 2
        yield {"ask": "scan", "station": station, "secret": SECRETS[station], "ref": ballot, "ballot": ballot, "marks": marks}


def records(ballots):
    yield "station,secret,ref,ballot,marks"
    for ask in asks(ballots):
        marks = " ".join("%d:%d" % tuple(mark) for mark in ask["marks"])
        yield "%(station)d,%(secret)s,%(ref)d,%(ballot)d," % ask + marks


def answer(file, kept, connection, ask):
    stamp, ballot, marks = (ask["station"], ask["ref"]), ask["ballot"], ask["marks"]
    races = file["plan"]["races"]
    if ask["station"] >= len(file["secrets"]) or file["secrets"][ask["station"]] != ask["secret"]:
        return {"error": "secret", "status": 403}
    detail = " ".join("%d:%d" % (race, candidate) for race, candidate in marks)
    text = ("scan %d %s" % (ballot, detail)).rstrip()
    if stamp in kept["done"]:
        return {"error": "ref", "kept": kept["done"][stamp], "status": 409}
    if ballot in kept["ballots"]:
        return {"error": "fate", "fate": "cast", "status": 409}
    for at, (race, candidate) in enumerate(marks):
        if race >= len(races) or candidate >= len(races[race]["candidates"]):
            return {"at": at, "error": "race", "status": 422}
    connection.execute("BEGIN")
    connection.execute("INSERT INTO ballot (number, fate, detail) VALUES (?1, ?2, ?3)", (ballot, 1, detail))
    connection.execute("INSERT INTO done (station, number, act) VALUES (?1, ?2, ?3)", (*stamp, text))
    connection.execute("COMMIT")
    kept["ballots"][ballot], kept["done"][stamp] = marks, text
    marked = [race for race, _ in marks]
    over = [at for at, race in enumerate(races) if marked.count(at) > race["votes"]]
    return {"over": over, "status": 200}


def do(file):
    connection = opened()
    connection.execute("INSERT INTO setup (id, body) VALUES (1, ?1)", (json.dumps(file),))
    kept = {"ballots": {}, "done": {}}
    for line in sys.stdin:
        reply = answer(file, kept, connection, json.loads(line))
        print(json.dumps(reply, separators=(",", ":")), flush=True)


def main(task, given):
    if task == "election":
        print(json.dumps(election(int(given))))
    elif task == "plain":
        print(json.dumps(plain(int(given))))
    elif task in ("asks", "votes"):
        for ask in {"asks": asks, "votes": votes}[task](int(given)):
            print(json.dumps(ask, separators=(",", ":")))
    elif task == "file":
        print("\n".join(records(int(given))))
    else:
        do(json.load(open(given, encoding="utf-8")))


if __name__ == "__main__":
    main(sys.argv[1], sys.argv[2])
