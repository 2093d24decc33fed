#!/usr/bin/env bash
# Times `audit` beside `sha256sum` of the same file, over records of 20,000 to 200,000 rows of table R.
#
#   bench/audit.sh        (at the top of the repository; builds the program first, and makes the records once)
#
# Prints, for each record: its rows and bytes, both times (the best of five runs), their ratio, the report's first line,
# and the most that the peak memory of `audit` can be (what starts it has some 13 MB of its own).
set -u
cd "$(dirname "$0")/.." || exit 1
made=bench/made
mkdir -p "$made"
. bench/program.sh
program=$(built sg_main audit < crates/sg_main/stdin) || exit 1
zeros=$(printf '0%.0s' {1..64})

# a name, and the script that makes the record, with its words
measure() {
    name=$1
    shift
    record=$made/$name.record
    [ -f "$record" ] || python3 "$@" > "$record" || exit 1
    first=$("$program" audit < "$record" | sed -n 1p)
    read -r audit_time memory <<< "$(best_reading "$record" "$program" audit)"
    read -r hash_time _ <<< "$(best_reading "$record" sha256sum)"
    python3 - "$name" "$(grep -c '^row-commit' "$record")" "$(stat -c %s "$record")" "$audit_time" "$hash_time" "$memory" "$first" <<'PY'
import sys
name, rows, size, audit, sha, memory, first = sys.argv[1:]
size, audit, sha = int(size), float(audit), float(sha)
print("%-24s rows %-6s bytes %-8d audit %.3f s (%s)  sha256sum %.3f s  ratio %.2f  %.0f MB/s  peak memory at most %.1f MB"
      % (name, rows, size, audit, first, sha, audit / sha, size / audit / 1e6, int(memory) / 1024))
PY
}

measure full-20000 bench/record.py 2000 10
measure full-200000 bench/record.py 20000 10
measure full-200000-version-2 bench/record.py 12500 16 --version 2
measure public-20000 bench/record.py 800 5 --instances 5 --draw "$zeros" --audited 20 --spoiled 20
measure public-200000 bench/record.py 8000 5 --instances 5 --draw "$zeros" --audited 200 --spoiled 200
measure town bench/record.py 1700 4,3 --instances 5 --draw "$zeros" --audited 50 --spoiled 50
measure runs-20000 bench/record.py 20000 2 --instances 5 --runs 20000 --draw "$zeros"
measure longest bench/longest.py
