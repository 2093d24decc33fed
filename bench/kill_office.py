"""Kills an office's program at random moments, starts it again and asks on, and compares all that comes out with a run without
kills.

    kill_office.py PROGRAM TIMES FOLDER [SEED]

`do` and `serve` are killed by SIGKILL, TIMES in all, and `init` beside them. Behind each kill Python's sqlite3 must find a copy of
the file whole, with each act that was answered and none by half. The office is asked on from the first ask that was not
answered, with some acts in front of it that were. Each reply must be that of the run without kills, and so must `record` and
`sheet` when all is answered. FOLDER is where the files lie; it must be there, and be empty.
"""
import contextlib
import json
import os
import random
import shutil
import signal
import socket
import sqlite3
import subprocess
import sys
import threading
import time

from do import SECRETS, election

BALLOTS = 60
ACTS = {"scan", "spoil", "void", "close", "draw", "claim"}
PORT = 8650


def asks():
    """A small day: scans of both stations, voids, spoiled ballots, some asks that are refused, the close, the draw and claims."""
    refs = [0, 0]

    def act(station, ask, **more):
        refs[station] += 1
        return {"ask": ask, "station": station, "secret": SECRETS[station], "ref": refs[station], **more}

    for ballot in range(1, BALLOTS - 9):
        yield act(ballot % 2, "scan", ballot=ballot, marks=[[0, ballot % 3], [1, ballot % 7]])
        if ballot % 9 == 0:
            yield act(1 - ballot % 2, "void", ballot=ballot)
        if ballot % 8 == 0:
            yield act(ballot % 2, "scan", ballot=ballot, marks=[])
            yield {"ask": "totals"}
    for ballot in range(BALLOTS - 9, BALLOTS - 4):
        yield act(0, "spoil", ballot=ballot)
        yield act(1, "scan", ballot=ballot, marks=[[0, 0]])
    yield act(0, "close")
    yield {"ask": "totals"}
    yield {"ask": "receipt", "ballot": 1}
    yield act(0, "draw", draw="00ff")
    for ballot in range(1, 8):
        yield act(1, "claim", ballot=ballot, race=0, code="%03d" % ballot)


def lines():
    return [json.dumps(ask, separators=(",", ":")).encode() for ask in asks()]


def run(program, word, given=b""):
    ran = subprocess.run([program, word], input=given, stdout=subprocess.PIPE, stderr=subprocess.PIPE)
    return ran.returncode, ran.stdout


def whole_lines(text):
    """The lines that end in a line feed. The last one may be cut."""
    return text.split(b"\n")[:-1]


class Office:
    """An office in the current folder, and what it must say."""

    def __init__(self, program, draw):
        self.program, self.draw = program, draw
        self.lines = lines()
        self.file = json.dumps(election(BALLOTS)).encode()
        self.kills = {"init": 0, "do": 0, "serve": 0}
        self.unanswered = self.again = 0

    def anew(self):
        for name in os.listdir("."):
            os.remove(name)

    def expect(self, what, due, got):
        if due != got:
            print("FAILED: %s: %.300r, and not %.300r" % (what, got, due))
            sys.exit(1)

    def without_kills(self):
        """Runs it all once, and keeps what comes out."""
        self.anew()
        self.expect("init", (0, b"begun\n"), run(self.program, "init", self.file))
        self.first = run(self.program, "record")[1]
        status, said = run(self.program, "do", b"\n".join(self.lines) + b"\n")
        self.replies = whole_lines(said)
        self.expect("do", (0, len(self.lines)), (status, len(self.replies)))
        self.record, self.sheet = run(self.program, "record"), run(self.program, "sheet")
        self.expect("record and sheet", (0, 0), (self.record[0], self.sheet[0]))
        accepted = lambda at: json.loads(self.lines[at])["ask"] in ACTS and json.loads(self.replies[at])["status"] == 200
        self.accepted = [at for at in range(len(self.lines)) if accepted(at)]

    def killed_behind(self, seconds, words, **how):
        """A run that is killed so long behind its start, unless it has ended: what it wrote, and whether it was killed."""
        process = subprocess.Popen([self.program, *words], stdout=subprocess.PIPE, stderr=subprocess.DEVNULL, **how)
        timer = threading.Timer(seconds, process.kill)
        timer.start()
        said = process.stdout.read()
        status = process.wait()
        timer.cancel()
        if status not in (0, 7, -signal.SIGKILL):
            self.expect("the status of %s" % words[0], 0, status)
        if status == -signal.SIGKILL:
            self.kills[words[0]] += 1
        return said, status == -signal.SIGKILL

    def begin(self, longest):
        """Sets up an office, while `init` is killed a few times: an office is there, or none."""
        with open("file", "wb") as file:
            file.write(self.file)
        begun = False
        for _ in range(3):
            with open("file", "rb") as file:
                self.killed_behind(self.draw.uniform(0, longest), ["init"], stdin=file)
            status, said = run(self.program, "record")
            if status == 0:
                begun = True
                self.expect("the first record", self.first, said)
            else:
                self.expect("no office", (False, 7, b"refused empty\n"), (begun, status, said))
        due = (7, b"refused begun\n") if begun else (0, b"begun\n")
        self.expect("init again", due, run(self.program, "init", self.file))

    def to_ask(self, answered):
        """Which asks are sent: some acts that were answered, and then all that were not."""
        earlier = [at for at in self.accepted if at < answered]
        again = self.draw.sample(earlier, min(len(earlier), self.draw.randrange(4)))
        self.again += len(again)
        return [*again, *range(answered, len(self.lines))]

    def do(self, answered, longest):
        """One run of `do` that is killed: how many asks are answered behind it."""
        asked = self.to_ask(answered)
        with open("asks", "wb") as file:
            file.write(b"".join(self.lines[at] + b"\n" for at in asked))
        with open("asks", "rb") as file:
            said, is_killed = self.killed_behind(self.draw.uniform(0, longest), ["do"], stdin=file)
        got = whole_lines(said)
        self.expect("the replies", [self.replies[at] for at in asked[: len(got)]], got)
        self.unanswered += is_killed and len(got) < len(asked)
        return max([answered, *(at + 1 for at in asked[: len(got)])])

    def serve(self, answered, longest):
        """One run of `serve` that is killed: how many asks are answered behind it."""
        process = subprocess.Popen([self.program, "serve", str(PORT), "1000000"], stdout=subprocess.DEVNULL, stderr=subprocess.DEVNULL)
        asked = self.to_ask(answered)
        timer = threading.Timer(self.draw.uniform(0, longest), process.kill)
        timer.start()
        for at in asked:
            reply = posted(self.lines[at], process)
            if reply is None:
                break
            self.expect("the answer", self.replies[at], reply)
            answered = max(answered, at + 1)
        timer.cancel()
        process.kill()
        process.wait()
        self.kills["serve"] += answered < len(self.lines)
        self.unanswered += answered < len(self.lines)
        return answered

    def look(self, answered):
        """Looks into a copy of the file: each act has a row in `done`, and one in the table of its kind."""
        for name in ("office.db", "office.db-wal"):
            shutil.copy(name, "copy-" + name)
        with contextlib.closing(sqlite3.connect("copy-office.db")) as file:
            found = lambda asked: file.execute(asked).fetchone()[0]
            said = found("PRAGMA integrity_check")
            done, *rows = (found("SELECT count(*) FROM " + table) for table in ("done", "ballot", "stage", "claim", "voided"))
        due = sum(at < answered for at in self.accepted)
        self.expect("the file behind %d answered acts" % due, ("ok", done, True), (said, sum(rows), done >= due))

    def round(self, way, longest):
        """A whole day with kills."""
        self.anew()
        self.begin(longest / 2)
        answered = 0
        while answered < len(self.lines):
            answered = way(answered, longest)
            self.look(answered)
        self.expect("the record", self.record, run(self.program, "record"))
        self.expect("the sheet", self.sheet, run(self.program, "sheet"))


def posted(line, process):
    """What one POST is answered: the whole body, or nothing where the server is gone before all of it came."""
    request = b"POST /ask HTTP/1.1\r\nHost: localhost\r\nContent-Length: %d\r\n\r\n%s" % (len(line), line)
    while process.poll() is None:
        try:
            with socket.create_connection(("127.0.0.1", PORT), timeout=20) as client:
                client.sendall(request)
                return body_of(client)
        except ConnectionRefusedError:
            time.sleep(0.002)
        except ConnectionError:
            return None
    return None


def body_of(client):
    text = b""
    while True:
        part = client.recv(65536)
        if not part:
            break
        text += part
    head, found, body = text.partition(b"\r\n\r\n")
    lengths = [int(line.split(b":")[1]) for line in head.split(b"\r\n") if line.startswith(b"Content-Length:")]
    return body if found and lengths == [len(body)] else None


def time_of(office, way):
    """The seconds that `do` or `serve` takes for all asks, from the beginning."""
    office.anew()
    run(office.program, "init", office.file)
    start = time.perf_counter()
    way(0, 3600)
    return time.perf_counter() - start


def main(program, times, folder, seed="1"):
    program = os.path.realpath(program)
    os.chdir(folder)
    office = Office(program, random.Random(int(seed)))
    office.without_kills()
    ways = {"do": office.do, "serve": office.serve}
    longest = {word: time_of(office, way) for word, way in ways.items()}
    rounds = 0
    while office.kills["do"] + office.kills["serve"] < int(times):
        word = min(ways, key=office.kills.get)
        office.round(ways[word], longest[word])
        rounds += 1
        print("%d kills in %d days" % (office.kills["do"] + office.kills["serve"], rounds), file=sys.stderr)
    kills = office.kills
    print(
        "%d kills of do, %d of serve and %d of init in %d days of %d asks: %d times asks were not answered, %d answered acts were sent again; each reply, record and sheet as without kills"
        % (kills["do"], kills["serve"], kills["init"], rounds, len(office.lines), office.unanswered, office.again)
    )
    office.anew()


if __name__ == "__main__":
    main(*sys.argv[1:])
