#!/usr/bin/env bash
# Times reading and writing the longest record (82 MB), line by line and as a whole, beside a copy of its bytes; and one
# of 43 MB whose ballots are cast, with a run for each of its 20,000 ballots.
#
#   bench/lines.sh        (at the top of the repository, after bench/audit.sh, which makes the records)
set -u
cd "$(dirname "$0")/.." || exit 1
. bench/program.sh
program=$(built measures lines copy < crates/measures/stdin) || exit 1
for record in longest runs-20000; do
    for work in copy read write gather post; do
        for _ in 1 2 3; do
            /usr/bin/time -f "$record $work %U s" "$program" lines "$work" < "bench/made/$record.record" > /dev/null
        done
    done
done
