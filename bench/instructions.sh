#!/usr/bin/env bash
# Counts the instructions of `audit` over the records of bench/audit.sh, by valgrind, under which SHA-256 goes without the
# processor's own instructions for it.
#
#   bench/instructions.sh [PROGRAM]     (at the top of the repository, after bench/audit.sh, which makes the records)
#
# Prints, for each record: its bytes, the instructions in millions, and those a byte.
set -u
cd "$(dirname "$0")/.." || exit 1
. bench/program.sh
program=${1:-$(built sg_auditor audit < crates/sg_auditor/stdin)} || exit 1
counts=$(mktemp)
trap 'rm -f "$counts"' EXIT
for name in full-20000 full-200000 full-200000-version-2 public-20000 public-200000 town runs-20000 longest; do
    record=bench/made/$name.record
    valgrind --tool=callgrind --callgrind-out-file=/dev/null --log-file="$counts" "$program" audit < "$record" > /dev/null
    python3 - "$name" "$(stat -c %s "$record")" "$counts" <<'PY'
import re, sys
name, size, counts = sys.argv[1:]
count = int(re.search(r"Collected : (\d+)", open(counts).read()).group(1))
print("%-24s bytes %-9s instructions %6.0f million  %.2f a byte" % (name, size, count / 1e6, count / int(size)))
PY
done
