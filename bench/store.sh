#!/usr/bin/env bash
# Times the opening of an office from office.db, as `do` without an ask opens it, beside Python's sqlite3, which loads the same rows
# in the same order: 20,000 ballots and as many acts. Each is timed as a whole process, in rounds that take turns; the time of
# the same process over the office before its first ask is taken off.
#
#   bench/store.sh [FOLDER]        (at the top of the repository; the files lie in FOLDER, on the disk to be timed)
set -u
cd "$(dirname "$0")/.." || exit 1
. bench/program.sh
program=$(built sg_main audit < examples/first/first.record) || exit 1
program=$PWD/$program
load="python3 $PWD/bench/store.py"
asker="python3 $PWD/bench/do.py"
folder=$(mktemp -d -p "${1:-/tmp}") || exit 1
trap 'rm -rf "$folder"' EXIT
cd "$folder" || exit 1
scans=20000

# The time of a command in microseconds, in this folder.
spent() {
    cd "$1" || exit 1
    start=$(date +%s%N)
    shift
    "$@" < /dev/null > /dev/null || exit 1
    echo $((($(date +%s%N) - start) / 1000))
}

# The least of two numbers, where the first may be missing.
least() {
    if [ -z "$1" ] || [ "$2" -lt "$1" ]; then echo "$2"; else echo "$1"; fi
}

$asker election $scans > election.json
$asker asks $scans > asks
for office in none all; do
    mkdir "$office" && (cd "$office" && "$program" init < ../election.json > begun) || exit 1
done
(cd all && "$program" do < ../asks > replies) || exit 1

ours= theirs= ours_none= theirs_none=
for _ in 1 2 3 4 5 6 7; do
    ours=$(least "$ours" "$(spent all "$program" do)")
    theirs=$(least "$theirs" "$(spent all $load)")
    ours_none=$(least "$ours_none" "$(spent none "$program" do)")
    theirs_none=$(least "$theirs_none" "$(spent none $load)")
done
echo "$scans ballots and acts: the office is opened in $((ours - ours_none)) us beside the $ours_none us without them; sqlite3 loads them in $((theirs - theirs_none)) us"
