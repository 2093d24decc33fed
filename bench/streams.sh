#!/usr/bin/env bash
# Times the drawing of an order of 200,000 numbers, of a million coins in turn, of the codes of 62,500
# ballot rows and of a million keys, each beside as many words of the bare generator.
#
#   bench/streams.sh        (at the top of the repository)
set -u
cd "$(dirname "$0")/.." || exit 1
. bench/program.sh
program=$(built measures streams words 0) || exit 1

timed() {
    echo "$*: $(best_of_five "$program" streams "$@") us"
}

timed words 0
timed order 200000
timed words 400000
timed coins 1000000
timed words 1000000
timed codes 62500
timed keys 1000000
timed words 4000000
