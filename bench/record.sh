#!/usr/bin/env bash
# Times `record` of an office of 20,000 ballots (200,000 rows of table R) into a file, into nothing and into a pipe, in rounds
# that take turns, beside the writing of such a record by `measures post` (which has no office.db to open), `cat` and
# `sha256sum`; and counts the calls that write, where strace is there. Both records are of one race of two candidates, in five
# instances, and as long.
#
#   bench/record.sh [PROGRAM..]       (at the top of the repository; these built programs, else the one that is built here)
#
# Prints, for each program: the best of seven rounds in milliseconds of `record` into a file, into /dev/null and into a pipe;
# how many calls of write it made, and how many bytes it wrote. Then the same times of the others.
set -u
cd "$(dirname "$0")/.." || exit 1
. bench/program.sh
[ $# -gt 0 ] || set -- "$(built sg_main audit < examples/first/first.record)"
programs=()
for program in "$@"; do programs+=("$(realpath "$program")") || exit 1; done
post=$(built measures post) || exit 1
post=$(realpath "$post")
python="python3 $PWD/bench/do.py"
folder=$(mktemp -d) || exit 1
trap 'rm -rf "$folder"' EXIT
cd "$folder" || exit 1

$python plain 20000 > election.json
$python votes 20000 > all
"${programs[0]}" init < election.json > begun || exit 1
"${programs[0]}" do < all > replies || exit 1

python3 - "$post" "${programs[@]}" <<'PY'
import os, subprocess, sys, time
post, programs = sys.argv[1], sys.argv[2:]
ways = ("file", "nothing", "pipe")

def run(way, *command):
    start = time.perf_counter()
    if way == "file":
        with open("text", "wb") as sink:
            subprocess.run(command, stdout=sink, check=True)
    elif way == "nothing":
        subprocess.run(command, stdout=subprocess.DEVNULL, check=True)
    else:
        with subprocess.Popen(command, stdout=subprocess.PIPE) as writer:
            while writer.stdout.read(65536):
                pass
        if writer.returncode != 0:
            sys.exit("%s ended with %d" % (command, writer.returncode))
    return time.perf_counter() - start

def writes(program):
    try:
        with open("text", "wb") as sink:
            said = subprocess.run(("strace", "-f", "-c", "-e", "trace=write", program, "record"), stdout=sink,
                                  stderr=subprocess.PIPE, text=True, check=True).stderr
    except FileNotFoundError:
        return "-"
    counts = [line.split()[3] for line in said.splitlines() if line.endswith(" write")]
    return counts[0] if counts else "0"

commands = {program: (program, "record") for program in programs}
commands["measures post make"] = (post, "post", "make", "1", "20000")
commands["measures post post"] = (post, "post", "post", "1", "20000")
commands["cat"] = ("cat", "record")
commands["sha256sum"] = ("sha256sum", "record")
with open("record", "wb") as sink:
    subprocess.run((programs[0], "record"), stdout=sink, check=True)
best = {}
for _ in range(7):
    for name, command in commands.items():
        for way in ways:
            spent = run(way, *command)
            best[name, way] = min(best.get((name, way), spent), spent)
print("record: %d bytes, %d lines" % (os.stat("record").st_size, sum(1 for _ in open("record", "rb"))))
print("%-40s %9s %9s %9s %9s" % ("ms", *ways, "writes"))
for name in commands:
    count = writes(name) if name in programs else ""
    print("%-40s %9s %9s %9s %9s" % (name[-40:], *("%.1f" % (best[name, way] * 1e3) for way in ways), count))
PY
