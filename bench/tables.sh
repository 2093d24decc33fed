#!/usr/bin/env bash
# Times the making of the tables of a town (races of 4 and 3 candidates, 1,700 ballots, 5 instances: 59,500
# rows of table R) and of the largest plan of one race (2 candidates, 20,000 ballots, 5 instances: 200,000
# rows), each beside a plain sort of as many pairs and the start of two streams for each ballot row of its
# races, and gives the peak memory of each.
#
#   bench/tables.sh        (at the top of the repository)
set -u
cd "$(dirname "$0")/.." || exit 1
. bench/program.sh
program=$(built measures tables sort 0) || exit 1

timed() {
    best=$(best_of_five "$program" tables "$@")
    memory=$(/usr/bin/time -f %M "$program" tables "$@" 2>&1 > /dev/null)
    echo "$*: $best us, peak $memory kB"
}

timed town
timed sort 59500
timed start 6800
timed largest
timed sort 200000
timed start 40000
timed sort 0
