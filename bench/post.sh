#!/usr/bin/env bash
# Times the posting of an election of one race (2 candidates, 5 instances, each ballot cast, a public draw) beside `cat`
# of the same bytes into a file and `sha256sum` of that file, in rounds that take turns: 2,000 ballots (20,000 rows of
# table R), 20,000 (200,000 rows), and 20,000 in runs of one ballot each.
#
#   bench/post.sh        (at the top of the repository)
#
# Prints, for each: its rows and bytes; the times (the best of seven rounds) of the tables, of what the ballots make of
# them, of the writing, and of all in one process; those of `cat` and of `sha256sum`; how much longer than both together
# the posting takes; its time for a row; its peak memory, and what part of the record that is.
set -u
cd "$(dirname "$0")/.." || exit 1
. bench/program.sh
program=$(built measures post) || exit 1
folder=$(mktemp -d) || exit 1
trap 'rm -rf "$folder"' EXIT

python3 - "$program" "$folder" <<'PY'
import os, subprocess, sys, time
program, folder = sys.argv[1:]
text, copy = folder + "/text", folder + "/copy"

def run(out, *command):
    with open(out, "wb") as sink:
        start = time.perf_counter()
        subprocess.run(command, stdout=sink, check=True)
        return time.perf_counter() - start

def peak(*command):
    said = subprocess.run(("/usr/bin/time", "-f", "%M") + command, stdout=subprocess.DEVNULL, stderr=subprocess.PIPE, check=True)
    return int(said.stderr) * 1024

line = "%6s %7s %7s %9s %9s %7s %8s %8s %7s %10s %6s %8s %8s %5s"
print(line % ("runs", "ballots", "rows", "bytes", "tables ms", "make ms", "write ms", "all ms", "cat ms", "sha256 ms", "ratio",
              "ns a row", "peak MB", "part"))
for runs, ballots in ((1, 2000), (1, 20000), (20000, 1)):
    words = (str(runs), str(ballots))
    tables, made, post, plain, hashed = [], [], [], [], []
    for _ in range(7):
        tables.append(run(os.devnull, program, "post", "tables", *words))
        made.append(run(os.devnull, program, "post", "make", *words))
        post.append(run(text, program, "post", "post", *words))
        plain.append(run(copy, "cat", text))
        hashed.append(run(os.devnull, "sha256sum", copy))
    tables, made, post, plain, hashed = min(tables), min(made), min(post), min(plain), min(hashed)
    rows, size, memory = 10 * runs * ballots, os.stat(text).st_size, peak(program, "post", "post", *words)
    in_ms = ["%.1f" % (seconds * 1e3) for seconds in (tables, made - tables, post - made, post, plain, hashed)]
    print(line % (runs, runs * ballots, rows, size, *in_ms, "%.2f" % (post / (plain + hashed)),
                  "%.0f" % (post * 1e9 / rows), "%.1f" % (memory / 1e6), "%.2f" % (memory / size)))
PY
