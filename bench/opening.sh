#!/usr/bin/env bash
# Times asks of an office, and the opening of one from its rows.
#
#   bench/opening.sh        (at the top of the repository)
#
# The office has one race (2 candidates, 5 instances), and a keeper in memory: an ask is read from its JSON, answered, its
# rows are kept, and the reply's text is written.
#
# Prints how many scans are accepted a second behind 200 kept acts and behind 20,000 of them, half of these scans and half
# voids by another station: once where the scans come from the station whose rows stand last, and once where they come
# from the first, and each new row has half of the kept rows behind it. The program times each hundred scans by itself,
# and of each hundred the least time of many rounds counts: so short a time is seldom disturbed. Before any ask it takes
# the memory that the reading of the setup let go, so that what an act keeps is new memory, behind few acts as behind many.
# Then for two offices, the second twice as large: the time of the opening alone from the rows of all ballots, which are
# cast, and of claims, with the setup read and the tables made; that of a process that makes the rows alone is taken off.
# All times are processor time, and the works take turns.
set -u
cd "$(dirname "$0")/.." || exit 1
. bench/program.sh
program=$(built measures office) || exit 1

python3 - "$program" <<'PY'
import os, sys
program = sys.argv[1]
seen, said = os.pipe()

def run(accepted, *words):
    """The processor time of the program with these words, which must accept so many, and the times that it told."""
    child = os.posix_spawn(program, (program, "office") + words, {}, file_actions=[(os.POSIX_SPAWN_DUP2, said, 1)])
    _, status, usage = os.wait4(child, 0)
    lines = os.read(seen, 10000).decode().splitlines() if status == 0 else [""]
    if lines[0] != accepted + " accepted":
        sys.exit("measures office %s ended with %d and said %s" % (" ".join(words), status, lines[0]))
    return usage.ru_utime + usage.ru_stime, [int(line) for line in lines[1:]]

def best(rounds, *works):
    """The least time of each work, in rounds that take turns. A work is what it must accept and its words."""
    times = [[run(str(accepted), *words)[0] for accepted, words in works] for _ in range(rounds)]
    return [min(column) for column in zip(*times)]

def best_asks(rounds, *works):
    """The sum of the least times of each work's batches of asks."""
    times = [[run(str(accepted), *words)[1] for accepted, words in works] for _ in range(rounds)]
    return [sum(min(batch) for batch in zip(*column)) / 1e9 for column in zip(*times)]

asks = 9000
print("%8s %8s %10s %12s" % ("kept", "station", "asks/s", "us an ask"))
works = [(kept, station) for station in ("1", "0") for kept in (200, 20000)]
spent = best_asks(200, *((kept + asks, ("answers", str(kept), str(asks), station)) for kept, station in works))
for (kept, station), time in zip(works, spent):
    print("%8d %8s %10.0f %12.3f" % (kept, station, asks / time, time * 1e6 / asks))

print("%8s %8s %12s %12s %12s" % ("ballots", "claims", "rows ms", "both ms", "opening ms"))
sizes = ((10000, 5000), (20000, 10000))
works = []
for size in sizes:
    numbers = [str(number) for number in size]
    works += [(0, ("rows", *numbers)), (0, ("open", *numbers))]
times = best(20, *works)
opened = []
for (ballots, claims), rows, both in zip(sizes, times[::2], times[1::2]):
    opened.append(both - rows)
    print("%8d %8d %12.1f %12.1f %12.1f" % (ballots, claims, rows * 1e3, both * 1e3, (both - rows) * 1e3))
print("twice the rows: %.2f times the opening" % (opened[1] / opened[0]))
PY
