#!/usr/bin/env bash
# Times the office's commands over office.db: `do` of 20,000 scans beside Python's json and sqlite3 doing the same rows with
# the same commits, in one run; `scans` of 100,000 records (each scan five times) beside `do` of the same asks; then `sheet` and `record` of the largest plan (200,000 rows), beside `cat` and `sha256sum` of
# the same bytes; and the most memory that each command held.
#
#   bench/office.sh [FOLDER]       (at the top of the repository; the files lie in FOLDER, on the disk to be timed)
set -u
cd "$(dirname "$0")/.." || exit 1
. bench/program.sh
program=$(built sg_main audit < examples/first/first.record) || exit 1
program=$PWD/$program
python="python3 $PWD/bench/do.py"
folder=$(mktemp -d -p "${1:-/tmp}") || exit 1
trap 'rm -rf "$folder"' EXIT
cd "$folder" || exit 1
scans=20000

# The microseconds that a command takes.
spent() {
    start=$(date +%s%N)
    "$@" > /dev/null || exit 1
    echo $((($(date +%s%N) - start) / 1000))
}

# The most memory that a command held, in kilobytes.
held() {
    python3 - "$@" <<'END'
import resource, subprocess, sys
subprocess.run(sys.argv[1:], stdin=open("input"), stdout=subprocess.DEVNULL, check=True)
print(resource.getrusage(resource.RUSAGE_CHILDREN).ru_maxrss)
END
}

anew() { rm -f office.db office.db-wal office.db-shm; }
ours() { "$program" do < asks; }
theirs() { $python do election.json < asks; }

$python election $scans > election.json
$python asks $scans > asks
for round in 1 2 3; do
    anew
    "$program" init < election.json > begun || exit 1
    ours_now=$(spent ours)
    anew
    theirs_now=$(spent theirs)
    echo "round $round: do of $scans scans $((scans * 1000000 / ours_now)) a second, Python $((scans * 1000000 / theirs_now)), ratio $((theirs_now * 100 / ours_now))%"
done

# Five times the same scans: each counts once.
$python file $scans > once
for _ in 1 2 3 4 5; do cat asks; done > asks_again
(head -1 once; for _ in 1 2 3 4 5; do tail -n +2 once; done) > file_again
for word in do scans; do
    [ "$word" = do ] && from=asks_again || from=file_again
    anew
    "$program" init < election.json > begun || exit 1
    begun_at=$(date +%s%N)
    "$program" $word < $from > replies || exit 1
    took=$(($(date +%s%N) - begun_at))
    echo "$word of $(wc -l < replies) scans: $(($(wc -l < replies) * 1000000000 / took)) a second, $(sha256sum < replies | cut -c1-16)"
done

anew
"$program" init < election.json > begun
cp asks input
echo "do: $(held "$program" do) kB"
: > input
echo '{"ask":"close","station":0,"secret":"00000000000000000000000000000001","ref":0}' | "$program" do > closed
echo '{"ask":"draw","station":0,"secret":"00000000000000000000000000000001","ref":100000,"draw":"00ff"}' | "$program" do > drawn
"$program" record > record
echo "the record: $(wc -l < record) lines, $(stat -c %s record) bytes"
for word in sheet record; do
    echo "$word: $(best_of_five "$program" $word) us, $(held "$program" $word) kB"
done
echo "cat: $(best_of_five cat record) us; sha256sum: $(best_of_five sha256sum record) us"
"$program" audit < record | sed -n 1p
