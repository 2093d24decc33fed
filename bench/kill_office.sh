#!/usr/bin/env bash
# Kills the program at random moments of `do` and `serve`, 1,000 times in all, and of `init`, starts it again and asks on: each reply must
# be that of a run without kills, and so must the record and the sheet in the end, and sqlite3 must find the file whole behind each
# kill (`bench/kill_office.py`). How far it is goes to standard error. On a disk it takes half an hour, in memory (/dev/shm) a minute:
# what a kill leaves does not depend on it.
#
#   bench/kill_office.sh [PROGRAM [TIMES [FOLDER]]]       (at the top of the repository; the files lie in FOLDER, else in /tmp)
set -u
cd "$(dirname "$0")/.." || exit 1
program=${1:-crates/sg_main/out/sg_main}
[ -x "$program" ] || { echo "there is no program $program"; exit 1; }
folder=$(mktemp -d -p "${3:-/tmp}") || exit 1
trap 'rm -rf "$folder"' EXIT
umask 077
python3 bench/kill_office.py "$program" "${2:-1000}" "$folder"
