#!/usr/bin/env python3
"""Steps for the part `offices` of crates/office_cases whose inputs were written by hand, with what must come by the rules.

    by_hand.py STDIN STDOUT        (in this folder)

appends the steps to STDIN, and to STDOUT the lines that say what must come (parts.py writes and puts those of the crate).
Codes, papers, openings and the records of by_hand/ were computed by another program; the replies to acts are those of
office.py too, another office.
"""
import json
import sys

from county import sealed
from cut_scans import HEADER, line_of, scan_of
from office import Election, Office, act_text, answer_line

NOT_JSON, SHAPE, DONE = ('{"error":"json","status":400}', '{"error":"shape","status":400}', '{"status":200}')
SCANNED = '{"over":[],"status":200}'
RISING = "000102030405060708090a0b0c0d0e0f"
OTHER = "f0000000000000000000000000000000"


def step(name, word, given, wanted, status=0):
    as_bytes = lambda text: text if isinstance(text, bytes) else text.encode()
    return name, word, as_bytes(given), as_bytes(wanted), status


def ended(lines):
    return "".join(line + "\n" for line in lines)


def setup_row(text):
    return "setup %s\n" % text.encode().hex()


def read(name):
    with open(name, encoding="utf-8", newline="") as file:
        return file.read()


# RECORDS

FIRST = read("../examples/first/first.record")
TWO_VOTES = read("by_hand/two_votes.record")
NO_KEY = "0" * 32

SECOND_VERSION = {
    1: "scantegrity2 2",
    9: "code-commit 0 189f99f53e0b5c4ad955f96b0014a590d64b2a0ddfd6d6016e0e82a909840e48",
    10: "code-commit 0 c4cb1e1762754afba1edbd0400eddb57f1daf0841e24f21608b10b9ddb1d0701",
    15: "code 0 0 %s PRJ" % NO_KEY,
}
LEFT_OF_TWO = "row-commit 0 0 f3442ab0c7035f93a66d6fb6a5c24d35f20d04ec715fd13ec83eb811a0b3f2d9 %s"
RIGHT_OF_TWO = "row-commit 0 0 c925e6ff896643a3d86df264409e238e96cb035a61071ecdb0c16d68f805a332 %s"
RIGHT_0 = "8f2275cd21192ebb297ed922782252d71367efada1254ef94c0885b70d7f666e"
RIGHT_1 = "db6d3b454201ba1361f702af8fe64a75632a8391aef1c0f409fa0287b2d35073"
BOTH = "both " + NO_KEY + " %d " + NO_KEY + " %d"

# name, record, lines by their numbers, whether it is sealed anew, and the report
CHANGED = [
    ("whole", FIRST, {}, False, "yes\ntotal 0 0 1\ntotal 0 1 0\n"),
    ("version-2", FIRST, SECOND_VERSION, True, "yes\ntotal 0 0 1\ntotal 0 1 0\n"),
    ("two-spaces", FIRST, {14: "cast  1"}, False, "no 14 form\n"),
    ("carriage-return", FIRST, {1: "scantegrity2 1\r"}, False, "no 1 form\n"),
    ("total-too-high", FIRST, {18: "total 0 0 2"}, True, "no 18 total\n"),
    ("total-with-a-zero", FIRST, {18: "total 0 0 01"}, True, "no 18 form\n"),
    ("flag-turned", FIRST, {16: "flags 0 0 00"}, True, "no 22 flag\n"),
    ("flag-under-the-old-seal", FIRST, {16: "flags 0 0 00"}, False, "no 20 seal\n"),
    ("another-key", FIRST, {15: "code 0 0 %s1 100" % NO_KEY[1:]}, True, "no 15 opening\n"),
    ("pointer-n", FIRST, {11: LEFT_OF_TWO % RIGHT_0, 22: BOTH % (2, 0)}, True, "no 22 pointer\n"),
    ("pointer-twice", FIRST, {12: RIGHT_OF_TWO % RIGHT_1, 23: BOTH % (0, 1)}, True, "no 23 pointer\n"),
    (
        "pointers-exchanged",
        FIRST,
        {
            11: "row-commit 0 0 eab924bdaa08631e68a6727f6fc03eccd09ff164c0558ecd123890e374e2ae94 " + RIGHT_0,
            12: RIGHT_OF_TWO % RIGHT_1,
            22: BOTH % (1, 0),
            23: BOTH % (0, 1),
        },
        True,
        "no 22 flag\n",
    ),
    ("one-side", FIRST, {22: "left %s 0" % NO_KEY}, True, "no 22 side\n"),
    ("one-vote", TWO_VOTES, {4: "race Mayor 2 1"}, True, "no 20 rule\n"),
    ("two-votes", TWO_VOTES, {}, False, "yes\ntotal 0 0 2\ntotal 0 1 1\n"),
    (
        "code-twice",
        TWO_VOTES,
        {10: "code-commit 0 fc69eee586adec08e1d7736cf2d2157d78d19a38ce297bcc8afdb44e69b7a21d", 20: "code 0 1 %s 100" % NO_KEY},
        True,
        "no 20 rule\n",
    ),
    (
        "one-candidate",
        TWO_VOTES,
        {
            13: LEFT_OF_TWO % "f1570369882be25195448becec9320ebd669787c567602e1fdc4c3309e1c2333",
            16: "row-commit 0 0 da104b8b4401c944b42dac63a6d0fc394f893c84f47b9ad737325752c858602d "
            "98502ac663329845e4f8a845f1faac840a56e93e980aaac7ac64ec303226ef6e",
            29: BOTH % (2, 1),
            32: BOTH % (1, 0),
        },
        True,
        "no 31 path\n",
    ),
    ("line-behind", FIRST + "cast 1\n", {}, False, "no 25 form\n"),
]

# parts of the smallest record, and the first bad line
PARTS = [(FIRST[:10], 1), (FIRST[:16], 2), (FIRST[:1000], 24), (FIRST[:-1], 24), (FIRST[15:], 1), ("scantegrity2 1\nelection E\ninstances 0\n", 3)]


def patched(record, changes, anew):
    lines = record.split("\n")
    for number, line in changes.items():
        lines[number - 1] = line
    return ended(sealed(lines[:-1])) if anew else "\n".join(lines)


def audits():
    yield step("hand-audit", "rows", "", "")
    for name, record, changes, anew, report in CHANGED:
        status = 0 if report.startswith("yes") else 1
        yield step("hand-audit-" + name, "audit", patched(record, changes, anew), report, status)
    for number, (part, line) in enumerate(PARTS):
        yield step("hand-audit-part-%d" % number, "audit", part, "no %d form\n" % line, 1)


# COURTS

FIRST_SHEET, TWO_SHEET = "ballot 1 0\ncodes 0 100 200\n", "ballot 1 0\ncodes 0 100 200\nballot 2 0\ncodes 0 300 400\n"
FIRST_ROWS = ended(BOTH % (row, row) for row in (0, 1))
MOVED, ADDED = read("by_hand/moved.record"), read("by_hand/added.record")


def text_of(record, sheet, rows):
    return record + "printing\n" + sheet + "completion\n" + rows


def found(altered, sums):
    """What a recount of one race says: the altered rows of each instance, and each candidate's total and count."""
    for instance, rows in enumerate(altered):
        yield "altered 0 %d %d" % (instance, len(rows))
        yield from ("row 0 %d %d" % (instance, row) for row in rows)
    yield from ("candidate 0 %d %d %d" % (at, *pair) for at, pair in enumerate(sums))


EACH = [[0, 1, 2, 3]] * 3
# name, text, altered rows, totals and counts, and what the odds say
COUNTED = [
    # A moved vote is a row of each instance. The totals agree with the pointers, though not with the papers.
    ("moved", text_of(MOVED, TWO_SHEET, read("by_hand/moved.rows")), [[1], [3], [3]], [(1, 2), (1, 0)], ("exponent 0 0\n", 0)),
    # Where only the posted halves are given, each row has one that is missing.
    ("halves", text_of(MOVED, TWO_SHEET, read("by_hand/moved.posted")), EACH, [(1, 2), (1, 0)], ("refused full 0 0 0\n", 7)),
    # An added place passes by luck.
    ("added", text_of(ADDED, TWO_SHEET, read("by_hand/added.rows")), [[3], [0], [2]], [(2, 2), (1, 0)], ("exponent 0 3\n", 0)),
]

PRINTING = "printing\n" + FIRST_SHEET
# what stands behind the smallest record, which has 24 lines, and why the text is refused
BEHIND = [
    ("", "refused printing 25"),
    ("one\n", "no 25 form"),
    ("printing \n", "no 25 form"),
    ("printing", "no 25 form"),
    ("printing\n", "refused printing 26"),
    ("printing\nprinting\n", "refused printing 26"),
    (PRINTING, "refused completion 28"),
    (PRINTING + "completion", "refused completion 28"),
    (PRINTING + "completion\n", "refused completion 29"),
    (PRINTING + "completion\nnone\n", "refused completion 30"),
    (PRINTING + "completion\nnone\nnone \n", "refused completion 30"),
    (PRINTING + "completion\nnone\nnone\nmore\n", "refused completion 31"),
    (PRINTING + "completion\nAll\nnone\n", "refused completion 29"),
    (PRINTING + "completion\nnone\nnone\nnone\n", "refused completion 31"),
    # A half that is posted is not given.
    (PRINTING + "completion\nnone\nnone\n", "refused posted 0 0 0"),
    (PRINTING + "completion\n%s\nleft %s 1\n" % (BOTH % (0, 0), NO_KEY), "refused posted 0 0 1"),
    # The second key is not the one that is committed to.
    (PRINTING + "completion\n%s\nleft %s1 1\n" % (BOTH % (0, 0), NO_KEY[1:]), "refused opening 0 0 1"),
    # A code stands twice; the codes are missing; the posted code is printed beside the other candidate.
    ("printing\nballot 1 0\ncodes 0 100 100\ncompletion\n" + FIRST_ROWS, "refused printing 27"),
    ("printing\nballot 1 0\ncompletion\n" + FIRST_ROWS, "refused printing 27"),
    ("printing\nballot 1 0\ncodes 0 200 100\ncompletion\n" + FIRST_ROWS, "refused stand 0 0 0"),
]

# other texts that are refused
ELSE = [
    ("", "no 1 form"),
    ("printing\n", "no 1 form"),
    ("printing\ncompletion\n", "no 1 form"),
    (text_of("", FIRST_SHEET, FIRST_ROWS), "no 1 form"),
    # The first row of the other record has the same openings, and the second another place.
    (text_of(MOVED, TWO_SHEET, read("by_hand/added.rows")), "refused opening 0 0 1"),
]


def courts():
    yield step("hand-court", "rows", "", "")
    for name, text, altered, sums, (odds, status) in COUNTED:
        yield step("hand-court-" + name, "recount", text, ended(found(altered, sums)))
        yield step("hand-court-" + name, "odds", text, odds, status)
    for number, (text, report) in enumerate([(FIRST + lines, report) for lines, report in BEHIND] + ELSE):
        yield step("hand-court-%d" % number, "recount", text, report + "\n", 1 if report.startswith("no") else 7)


# ASKS

NO_JSON = [
    "",
    " ",
    "{",
    '{"ask":"totals"',
    '{"ask":"totals"}{}',
    '{"ask":"totals"} x',
    "{'ask':'totals'}",
    '{"ask":"totals",}',
    '{"ask":"receipt","ballot":01}',
    '{"ask":"receipt","ballot":+1}',
    '{"ask":"receipt","ballot":.5}',
    '{"ask":"receipt","ballot":1.}',
    '{"ask":"receipt","ballot":1e}',
    '{"ask":"receipt","ballot":1e400}',
    '{"ask":"receipt","ballot":NaN}',
    '{"ask":"\\udc00\\ud800"}',
    '{"ask":"\\x"}',
    '\ufeff{"ask":"totals"}',
    "[" * 128 + "]" * 128,
]
OTHER_SHAPES = [
    "[" * 127 + "]" * 127,
    "null",
    '"totals"',
    '["totals"]',
    '[{"ask":"totals"}]',
    "{}",
    '{"ask":"total"}',
    '{"ask":"Totals"}',
    '{"ask":""}',
    '{"ask":["totals"]}',
    '{"ask":"totals","ballot":1}',
    '{"ask":"totals","ask":1}',
    '{"ask":"receipt"}',
    '{"ask":"receipt","ballot":1,"race":0}',
    '{"ask":"receipt","Ballot":1}',
    '{"ask":"receipt","ballot":1,"ballot":null}',
    '{"ask":"receipt","ballot":-1}',
    '{"ask":"receipt","ballot":-0}',
    '{"ask":"receipt","ballot":1.0}',
    '{"ask":"receipt","ballot":1e0}',
    '{"ask":"receipt","ballot":1E2}',
    '{"ask":"receipt","ballot":4294967296}',
    '{"ask":"receipt","ballot":18446744073709551617}',
    '{"ask":"receipt","ballot":"1"}',
    '{"ask":"receipt","ballot":[1]}',
    '{"ask":"receipt","ballot":{}}',
    '{"ask":"receipt","ballot":true}',
    '{"ask":"close","station":0,"ref":1}',
    '{"ask":"close","station":0,"secret":"%s"}' % RISING,
    '{"ask":"close","ref":1,"secret":"%s"}' % RISING,
    '{"ask":"close","station":"0","ref":1,"secret":"%s"}' % RISING,
    '{"ask":"close","station":0,"ref":1,"secret":"%sF"}' % RISING[:-1],
    '{"ask":"close","station":0,"ref":1,"secret":"%s"}' % RISING[:-1],
    '{"ask":"close","station":0,"ref":1,"secret":"%s0"}' % RISING,
]
# members of no act
OTHER_ACTS = [
    '"ask":"close","ballot":1',
    '"ask":"spoil"',
    '"ask":"scan","ballot":1',
    '"ask":"scan","ballot":1,"marks":[0,0]',
    '"ask":"scan","ballot":1,"marks":[[0]]',
    '"ask":"scan","ballot":1,"marks":[[0,0,0]]',
    '"ask":"scan","ballot":1,"marks":[[0,0],[0,-1]]',
    '"ask":"scan","ballot":1,"marks":[],"paper":[]',
    '"ask":"audit","ballot":1,"paper":["679"]',
    '"ask":"audit","ballot":1,"paper":[["679","67"]]',
    '"ask":"audit","ballot":1,"paper":[[679]]',
    '"ask":"draw","draw":"FULL"',
    '"ask":"draw","draw":"00f"',
    '"ask":"draw","draw":"00FF"',
    '"ask":"draw","draw":0',
    '"ask":"claim","ballot":1,"race":0,"code":"DGT"',
    '"ask":"claim","ballot":1,"race":0,"code":679',
    '"ask":"claim","ballot":1,"code":"679"',
    '"ask":"receipt","ballot":1',
]
# looks at an office of 12 ballots behind the voting
UNUSED = '{"ballot":%d,"codes":[],"fate":"unused","over":[],"status":200}'
TOTALS = '{"status":200,"totals":[[0,0,0],[0,0,0,0]]}'
LOOKS = [
    ('{"ask":"receipt","ballot":0}', '{"error":"ballot","status":404}'),
    ('{"ballot":4294967295,"ask":"receipt"}', '{"error":"ballot","status":404}'),
    (' {\t"ask" : "receipt" ,\r"ballot" : 7 }', UNUSED % 7),
    ('{"\\u0061sk":"r\\u0065ceipt","b\\u0061llot":7}', UNUSED % 7),
    ('{"ask":"totals","ballot":1,"ask":"receipt","ballot":2}', UNUSED % 2),
    ('{"ask":"totals"}', TOTALS),
    ('{"ask":{},"ask":"totals"}', TOTALS),
]

# an election of two races and 12 ballots, of which 8, 9 and 10 have the first race alone
DESKS = {
    "plan": {
        "version": 1,
        "name": "A",
        "instances": 3,
        "races": [{"name": "D", "candidates": list("ABC"), "votes": 1}, {"name": "E", "candidates": list("ABCD"), "votes": 2}],
        "styles": [{"name": "A", "races": [0, 1]}, {"name": "B", "races": [0]}],
        "runs": [{"style": 0, "ballots": 7}, {"style": 1, "ballots": 3}, {"style": 0, "ballots": 2}],
    },
    "seed": bytes(range(32)).hex(),
    "secrets": [RISING, OTHER],
}


def head_of(file):
    """The lines of a plan."""
    plan = file["plan"]
    yield "scantegrity2 %d" % plan["version"]
    yield "election " + plan["name"]
    yield "instances %d" % plan["instances"]
    for race in plan["races"]:
        yield "race %s %d %d" % (race["name"], len(race["candidates"]), race["votes"])
        yield from ("cand " + name for name in race["candidates"])
    yield from (" ".join(["style", style["name"], *map(str, style["races"])]) for style in plan["styles"])
    yield from ("ballots %(style)d %(ballots)d" % run for run in plan["runs"])


def setup_of(file):
    return ended([*head_of(file), "seed " + file["seed"], *("secret " + secret for secret in file["secrets"])])


def act(number, kind, station=0, **members):
    return dict(members, ask=kind, station=station, secret=[RISING, OTHER][station], ref=number)


def replies(office, pairs):
    """The step's lines and replies. The other office must answer so too."""
    for ask, wanted in pairs:
        line = ask if isinstance(ask, str) else json.dumps(ask)
        came = line_of(answer_line(office, line.encode())[1])[:-1]
        assert came == wanted, (line, came, wanted)
        yield line, wanted


def did(name, office, pairs):
    pairs = list(replies(office, pairs))
    return step(name, "do", ended(line for line, _ in pairs), ended(wanted for _, wanted in pairs))


def office_of(file):
    return Office(Election(json.dumps(file)))


def asks():
    yield step("hand-asks", "rows", setup_row(setup_of(DESKS)), "")
    office = office_of(DESKS)
    act_of = lambda members: '{"station":0,"secret":"%s","ref":1,%s}' % (RISING, members)
    yield did("hand-asks-no-json", office, [(line, NOT_JSON) for line in NO_JSON])
    yield step("hand-asks-no-text", "do", b'{"ask":"totals\xff"}\n', NOT_JSON + "\n")
    yield did("hand-asks-shapes", office, [(line, SHAPE) for line in OTHER_SHAPES])
    yield did("hand-asks-acts", office, [(act_of(members), SHAPE) for members in OTHER_ACTS])
    yield did("hand-asks-looks", office, [(act(2, "close"), DONE), *LOOKS])
    file = dict(DESKS, plan=dict(DESKS["plan"], version=2))
    yield step("hand-asks-version-2", "rows", setup_row(setup_of(file)), "")
    claim = '"ask":"claim","ballot":1,"race":0,"code":"%s"'
    office = office_of(file)
    voting = '{"error":"phase","phase":"voting","status":409}'
    yield did("hand-asks-version-2", office, [(act_of(claim % "100"), SHAPE), (act_of(claim % "DGT"), voting)])


# DESKS

PAPERS = [
    (1, "639,055,380 900,499,155,623", '{"match":true,"status":200}'),
    (12, "182,986,574 546,518,363,268", '{"match":true,"status":200}'),
    (9, "030,146,925", '{"match":true,"status":200}'),
    (8, "146,030,925", '{"match":false,"status":200}'),
    (2, "639,055,380 900,499,155,623", '{"match":false,"status":200}'),
    (3, "639,055,380 900,499,155,624", '{"match":false,"status":200}'),
    (10, "030,146,925 ", '{"error":"paper","status":422}'),
    (4, "639,055,380", '{"error":"paper","status":422}'),
    (4, "639,055,380 900,499,155", '{"error":"paper","status":422}'),
    (13, "639,055,380", '{"error":"ballot","status":404}'),
]
# ballots with their marks, the codes that are posted, and the races that are over
POSTS = [
    (1, [[0, 1], [1, 0], [1, 2]], '[[0,"055"],[1,"900"],[1,"155"]]', "[]"),
    (2, [[0, 0], [0, 2], [1, 3]], '[[1,"359"]]', "[0]"),
    (4, [[1, 0], [1, 3]], '[[1,"260"],[1,"853"]]', "[]"),
    (6, [[1, 0], [1, 1], [1, 2]], "[]", "[1]"),
    (8, [[0, 2]], '[[0,"034"]]', "[]"),
    (11, [], "[]", "[]"),
    (12, [[0, 0], [1, 1]], '[[0,"182"],[1,"518"]]', "[]"),
]
CLAIMS = [(1, 0, "055", "posted"), (1, 0, "639", "unposted"), (1, 1, "055", "absent"), (1, 1, "155", "posted"), (1, 1, "999", "absent")]
# the same of a ballot that is spoiled
SPOILED_CLAIMS = [(9, 0, "030", "unposted"), (9, 0, "031", "absent")]


def desks():
    yield step("hand-papers", "rows", setup_row(setup_of(DESKS)), "")
    paper = lambda text: [codes.split(",") if codes else [] for codes in text.split(" ")]
    audits = [(act(at, "audit", ballot=ballot, paper=paper(text)), wanted) for at, (ballot, text, wanted) in enumerate(PAPERS)]
    yield did("hand-papers", office_of(DESKS), audits)
    yield step("hand-posts", "rows", setup_row(setup_of(DESKS)), "")
    office = office_of(DESKS)
    scans = [(act(at, "scan", ballot=ballot, marks=marks), '{"over":%s,"status":200}' % over) for at, (ballot, marks, _, over) in enumerate(POSTS)]
    yield did("hand-posts", office, scans)
    taken_out = [act(89, "spoil", ballot=9), act(90, "scan", ballot=5, marks=[]), act(91, "void", station=1, ballot=5), act(92, "close")]
    yield did("hand-posts", office, [(ask, SCANNED if ask["ask"] == "scan" else DONE) for ask in taken_out])
    receipt = '{"ballot":%d,"codes":%s,"fate":"cast","over":%s,"status":200}'
    seen = [('{"ask":"receipt","ballot":%d}' % ballot, receipt % (ballot, codes, over)) for ballot, _, codes, over in POSTS]
    draw = act(93, "draw", draw="3ce7b852")
    yield did("hand-posts", office, [*seen, (act(94, "draw", draw=""), '{"error":"draw","status":422}'), (draw, DONE)])
    claim = lambda at, ballot, race, code: act(100 + at, "claim", station=1, ballot=ballot, race=race, code=code)
    answer = '{"status":200,"word":"%s"}'
    yield did("hand-claims", office, [(claim(at, *said[:3]), answer % said[3]) for at, said in enumerate(CLAIMS + SPOILED_CLAIMS)])
    yield step("hand-claims", "kept", "", ended(kept_of(scans, [*taken_out, draw])))


def kept_of(scans, others):
    """The rows of these acts and of the claims, by table and key."""
    text = lambda told: told.encode().hex()
    marks = {ballot: " ".join("%d:%d" % tuple(mark) for mark in found) for ballot, found, _, _ in POSTS}
    yield setup_row(setup_of(DESKS))[:-1]
    marks.update({5: "", 9: ""})
    yield from ("ballot %d %d %s" % (ballot, 2 if ballot == 9 else 1, text(marks[ballot])) for ballot in sorted(marks))
    yield from ["stage 1 ", "stage 2 " + text("3ce7b852")]
    claims = CLAIMS + SPOILED_CLAIMS
    yield from ("claim %d %d %d %d" % (at + 1, ballot, race, int(code)) for at, (ballot, race, code, _) in enumerate(claims))
    yield "voided 5"
    acts = [ask for ask, _ in scans] + others
    yield from ("done 0 %d %s" % (ask["ref"], text(act_text(ask))) for ask in acts if ask["station"] == 0)
    yield "done 1 91 " + text("void 5")
    yield from ("done 1 %d %s" % (100 + at, text("claim %d %d %s" % said[:3])) for at, said in enumerate(claims))


# SETUPS AND ELECTION FILES

TOWN = {
    "plan": {
        "version": 2,
        "name": "Town",
        "instances": 3,
        "races": [
            {"name": "Mayor", "candidates": ["Ada", "Ben"], "votes": 1},
            {"name": "Council", "candidates": ["Dan", "Eve", "Fay"], "votes": 2},
        ],
        "styles": [{"name": "All", "races": [0, 1]}, {"name": "Short", "races": [0]}],
        "runs": [{"style": 0, "ballots": 10}, {"style": 1, "ballots": 5}],
    },
    "seed": bytes(range(31)).hex() + "ff",
    "secrets": ["00112233445566778899aabbccddeeff", "ffeeddccbbaa99887766554433221100"],
}
PLAN = """scantegrity2 2
election Town
instances 3
race Mayor 2 1
cand Ada
cand Ben
race Council 3 2
cand Dan
cand Eve
cand Fay
style All 0 1
style Short 0
ballots 0 10
ballots 1 5
"""
SEED = "seed 000102030405060708090a0b0c0d0e0f101112131415161718191a1b1c1d1eff\n"
SECRET = "secret 00112233445566778899aabbccddeeff\n"
OTHER_SECRET = "secret ffeeddccbbaa99887766554433221100\n"

# texts that are no setup, and one that is
SETUPS = [
    ("nothing", ""),
    ("no-seed", PLAN + SECRET + OTHER_SECRET),
    ("two-seeds", PLAN + SEED + SEED + SECRET),
    ("seed-behind-a-secret", PLAN + SECRET + SEED),
    ("seed-in-front", SEED + PLAN + SECRET),
    ("seed-of-31-bytes", PLAN + SEED[:-3] + "\n" + SECRET),
    ("upper-case-digits", PLAN + SEED + SECRET[:-13] + "AABBCCDDEEFF\n"),
    ("secret-of-17-bytes", PLAN + SEED + SECRET[:-1] + "00\n"),
    ("empty-line", PLAN + SEED + SECRET + "\n"),
    ("a-run-more", PLAN + SEED + SECRET + "ballots 0 1\n"),
    ("no-line-feed", PLAN + SEED + SECRET + OTHER_SECRET[:-1]),
    ("two-spaces", PLAN + "seed  00\n"),
    ("no-such-style", PLAN + "ballots 2 1\n" + SEED + SECRET),
    ("half-a-plan", "scantegrity2 2\nelection Town\n" + SEED + SECRET),
    ("no-secret", PLAN + SEED),
    ("33-secrets", PLAN + SEED + SECRET * 33),
]
GOOD_SETUPS = [("one-secret", PLAN + SEED + SECRET), ("32-secrets", PLAN + SEED + SECRET * 32)]


def setups():
    for name, text in SETUPS:
        yield step("hand-setup-" + name, "rows", setup_row(text), "")
        yield step("hand-setup-" + name, "do", "", "damaged 1 1\n", 8)
    for name, text in GOOD_SETUPS:
        yield step("hand-setup-" + name, "rows", setup_row(text), "")
        yield step("hand-setup-" + name, "do", "", "")
    yield step("hand-setup", "rows", "", "")
    yield step("hand-setup", "init", json.dumps(TOWN), "begun\n")
    yield step("hand-setup", "kept", "", setup_row(PLAN + SEED + SECRET + OTHER_SECRET))


TWO, ONE_SECRET = '"Ada","Ben"', '"%s"' % RISING


def election_file(version, candidates=TWO, secrets=ONE_SECRET):
    return (
        '{"plan":{"version":%s,"name":"E","instances":1,"races":[{"name":"Mayor","candidates":[%s],"votes":1}],'
        '"styles":[{"name":"All","races":[0]}],"runs":[{"style":0,"ballots":1}]},"seed":"ff%s01","secrets":[%s]}'
    ) % (version, candidates, "0" * 60, secrets)


FILES = [
    (election_file("01"), "json"),
    ("{", "json"),
    (b'{"plan":"\xc3"}', "json"),
    ("[" * 128 + "]" * 128, "json"),
    ("[" * 127 + "]" * 127, "shape"),
    ('{"plan":{},"seed":""}', "shape"),
    (election_file("1.0"), "shape"),
    (election_file("1", "0"), "shape"),
    (election_file("1", TWO, "0"), "shape"),
    (election_file("3", TWO, "0"), "shape"),
    (election_file("1", TWO, '"%sF"' % RISING[:-1]), "shape"),
    (election_file('1,"more":0'), "shape"),
    (election_file("0", TWO, ""), "plan 1"),
    (election_file("3"), "plan 1"),
    (election_file("1", '"Ada"'), "plan 4 0"),
    (election_file("1", '"Ada"', ""), "plan 4 0"),
    (election_file("1", ",".join('"%s"' % name for name in "abcdefghijklmnopq")), "plan 4 0"),
    (election_file("1", TWO, ""), "secrets"),
    (election_file("1", TWO, ",".join([ONE_SECRET] * 33)), "secrets"),
]
SMALL = """scantegrity2 2
election E
instances 1
race Mayor 2 1
cand Ada
cand Ben
style All 0
ballots 0 1
seed ff%s01
secret %s
""" % ("0" * 60, RISING)


def inits():
    yield step("hand-init", "rows", "", "")
    for number, (file, why) in enumerate(FILES):
        yield step("hand-init-%d" % number, "init", file, "refused %s\n" % why, 7)
    yield step("hand-init", "kept", "", "")
    yield step("hand-init", "init", election_file("2"), "begun\n")
    for version, why in [("2", "begun"), ("1", "begun"), ("3", "plan 1")]:
        yield step("hand-init-again", "init", election_file(version), "refused %s\n" % why, 7)
    yield step("hand-init", "kept", "", setup_row(SMALL))
    yield step("hand-init-most", "rows", "", "")
    yield step("hand-init-most", "init", election_file("1", TWO, ",".join([ONE_SECRET] * 32)), "begun\n")


# SCANNERS' FILES

SCAN = "station,secret,ref,ballot,marks"
CAST = "0,%s,1,1,0:0\n" % RISING
# the fields of a record, and whether it is a scan
FIELDS = [
    (("0", RISING, "1", "1", "0:0"), True),
    (("0", RISING, "2", "2", "0:0 0:1"), True),
    (("4294967295", RISING, "4294967295", "0", ""), True),
    (("0", RISING, "01", "1", "0:0"), False),
    (("00", RISING, "1", "1", "0:0"), False),
    (("", RISING, "1", "1", "0:0"), False),
    ((" 0", RISING, "1", "1", "0:0"), False),
    (("0", RISING.replace("a", "A"), "1", "1", "0:0"), False),
    (("0", RISING[:-1], "1", "1", "0:0"), False),
    (("0", RISING + "00", "1", "1", "0:0"), False),
    (("0", RISING, "4294967296", "1", "0:0"), False),
    (("0", RISING, "1", "+1", "0:0"), False),
    (("0", RISING, "1", "1 0:0", "0:1"), False),
    (("0", RISING, "1", "1", " "), False),
    (("0", RISING, "1", "1", "0:0 "), False),
    (("0", RISING, "1", "1", "0:0  0:1"), False),
    (("0", RISING, "1", "1", "0:0,"), False),
    (("0", RISING, "1", "1", "0"), False),
    (("0", RISING, "1", "1", "0:0:0"), False),
    (("0", RISING, "1", "1", "0:0", ""), False),
    (("0", RISING, "3", "1", "1:2 1:3"), True),
    (("0", RISING, "3", "3", "0:2 0:1 4294967295:4294967295"), True),
]
# files, and their records behind the header: the fields of a scan, or none
FILES_OF_SCANS = [
    ("", None),
    ("\n\r\n\r", None),
    ("station,secret,ref,ballot", None),
    (SCAN + ",", None),
    ("station, secret,ref,ballot,marks\n", None),
    ("Station,secret,ref,ballot,marks\n", None),
    ("\n" * 200, None),
    (SCAN, []),
    ("\ufeff" + SCAN + "\r\n", []),
    ('\n\nstation,"secret",ref,ballot,marks\n\n', []),
    (SCAN + "\n" + SCAN + "\n \n", [None, None]),
    (SCAN + '\n"', [None]),
    # ends of lines and quotes
    (
        SCAN + '\r1,"%s",4294966795,3,1:0 1:4 1:1\r1,%s,4294966802,3,\r1,%s,424966803,1,1:\r7 1:1 1:2 1:4\r2,"%s",7,1,1:2\n\r\n' % ((OTHER,) * 4),
        [("1", OTHER, "4294966795", "3", "1:0 1:4 1:1"), ("1", OTHER, "4294966802", "3", ""), None, None, ("2", OTHER, "7", "1", "1:2")],
    ),
    (SCAN + '\n0,%s,2,2,\n"0:0\n0:1",%s,9,1,0:1 0:3' % ((RISING,) * 2), [("0", RISING, "2", "2", ""), None]),
    # as LibreOffice 7.4 saves a sheet, with each text between quotes
    (
        '"station","secret","ref","ballot","marks"\n"0","%s","2","2","0:0 0:1"\n"0","%s","39","1",\n"0","%s","4294967295","4","0:1 1:0 1:3"\n' % ((RISING,) * 3),
        [("0", RISING, "2", "2", "0:0 0:1"), ("0", RISING, "39", "1", ""), ("0", RISING, "4294967295", "4", "0:1 1:0 1:3")],
    ),
    # and as it does without being asked to
    (
        SCAN + "\n0,%s,2,2,0:0 0:1\n0,%s,39,1,\n0,%s,4294967295,4,0:1 1:0 1:3\n" % ((RISING,) * 3),
        [("0", RISING, "2", "2", "0:0 0:1"), ("0", RISING, "39", "1", ""), ("0", RISING, "4294967295", "4", "0:1 1:0 1:3")],
    ),
]


def scanned(office, fields):
    return line_of(office.answer(scan_of(fields))) if fields else SHAPE + "\n"


def scans():
    assert SCAN == ",".join(HEADER)
    file = ended([SCAN, *(",".join(fields) for fields, _ in FIELDS)])
    for number, (file, records) in enumerate([*FILES_OF_SCANS, (file, [fields if is_scan else None for fields, is_scan in FIELDS])]):
        office = office_of(DESKS)
        yield step("hand-scans-%d" % number, "rows", setup_row(setup_of(DESKS)), "")
        if records is None:
            yield step("hand-scans-%d" % number, "scans", file, "refused header\n", 7)
        else:
            yield step("hand-scans-%d" % number, "scans", file, "".join(scanned(office, fields) for fields in records))
    yield from scans_that_come_twice()


def scans_that_come_twice():
    answers = '{"over":[],"status":200}\n' * 2
    yield step("hand-scans-twice", "rows", "", "")
    yield step("hand-scans-twice", "scans", SCAN + "\n" + CAST, "refused empty\n", 7)
    yield step("hand-scans-twice", "rows", setup_row(SMALL), "")
    for _ in range(2):
        yield step("hand-scans-twice", "scans", SCAN + "\n" + CAST * 2, answers)
    yield step("hand-scans-twice", "scans", SCAN + "\n" + CAST.replace(",1,1,", ",01,1,"), SHAPE + "\n")
    rows = ["ballot 1 1 " + b"0:0".hex(), "done 0 1 " + b"scan 1 0:0".hex()]
    yield step("hand-scans-twice", "kept", "", setup_row(SMALL) + ended(rows))


# MANY ACTS, AND OPENINGS

# how many acts: a prime number, so that each step leads through all of their numbers
MOST = 599
MANY = {
    "plan": dict(TOWN["plan"], instances=1, races=TOWN["plan"]["races"][:1], styles=[{"name": "Short", "races": [0]}], runs=[{"style": 0, "ballots": MOST}]),
    "seed": TOWN["seed"],
    "secrets": [RISING, OTHER, RISING],
}


def many():
    """Three stations spoil each ballot, with numbers that rise, and with numbers in another order; and then do so again."""
    ask = lambda number, ballot: json.dumps(dict(act(number, "spoil", ballot=ballot), station=number % 3, secret=MANY["secrets"][number % 3]))
    refused = '{"error":"ref","kept":"spoil %d","status":409}'
    turned = [at * 254 % MOST for at in range(MOST)]
    for name, numbers in (("hand-many", range(MOST)), ("hand-many-turned", turned)):
        yield step(name, "rows", setup_row(setup_of(MANY)), "")
        yield step(name, "do", ended(ask(number, number + 1) for number in numbers), ended([DONE] * MOST))
    yield step("hand-many-turned", "do", ended(ask(number, number + 1) for number in range(MOST)), ended([DONE] * MOST))
    yield step("hand-many-turned", "do", ended(ask(number, 1) for number in range(9, MOST)), ended(refused % (number + 1) for number in range(9, MOST)))


OPENED = {
    "plan": dict(
        TOWN["plan"],
        version=1,
        name="E",
        instances=2,
        races=[{"name": name, "candidates": ["A", "B"], "votes": 1} for name in "MD"],
        styles=[{"name": "S", "races": [0, 1]}],
        runs=[{"style": 0, "ballots": 1}],
    ),
    "seed": "ff" + "0" * 60 + "01",
    "secrets": [RISING],
}
OPENINGS = """completion
both 26eda5b1d9ed1282259965b37e1cdb9c 0 a38ff205ceae6388f29c4808fc09d60f 1
both 8ff504fafae00a34ebb8bc7674e969ff 1 5b2badc522e64b84913aa1a489f66368 0
both 4f2fa3f25f85999d035ac24e08908aa2 0 57c9a00a25d4eaee355d9f9082b71f34 1
both dfe3caf8ca85e501899135124588ce37 1 ad02af03142ee3eaf48fbb949c3d5ea2 0
both 939c116437435da4a735257f57d00cfd 0 989148c7eb063b59004810ad763428e2 0
both 9fca719d4a244c41899cedd776c58b40 1 571913842cb77aa85ed82d6b4caf4041 1
both 56846b503be0f84412d6956944af3e97 1 d8209d849c3f789165295be3476b6864 1
both fb1eb6859969b335afd2bac7a8b0a6af 0 cc4a174cba9c63368c20bd202a13b253 0
"""


def openings():
    yield step("hand-openings", "rows", setup_row(setup_of(OPENED)), "")
    yield did("hand-openings", office_of(OPENED), [(act(1, "close"), DONE), (act(2, "draw", draw="full"), DONE)])
    yield step("hand-openings", "openings", "", OPENINGS)


def words():
    yield step("hand-words", "rows", "", "")
    for words in ("audit+now", "serve+08+1", "--help", "Audit", ""):
        yield step("hand-words", words, FIRST, "", 2)


def steps():
    for part in (audits, courts, asks, desks, setups, inits, scans, many, openings, words):
        yield from part()


def main():
    with open(sys.argv[1], "ab") as into, open(sys.argv[2], "ab") as told:
        for name, word, given, wanted, status in steps():
            into.write(b"%s %s %d %d %d\n" % (name.encode(), word.encode(), len(given), len(wanted), status) + given + wanted)
            if word != "rows":
                told.write(b"%s %s %d %d\n" % (name.encode(), word.encode(), status, len(wanted)))


if __name__ == "__main__":
    main()
