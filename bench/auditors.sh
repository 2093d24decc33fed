#!/usr/bin/env bash
# Compares the reports and exit statuses of a built program and of examples/auditor.py, byte for byte, with the stored reports
# and with each other: over the records of vectors/, of examples/, and of bench/made where these were made (bench/audit.sh).
#
#   bench/auditors.sh [PROGRAM]        (at the top of the repository; crates/sg_main/out/sg_main)
#
# Where PROGRAM is not there, examples/auditor.py alone is compared with the stored reports. Prints each difference, and how
# many records agreed; ends with status 1 where one differs. It wants python3.
set -u
cd "$(dirname "$0")/.." || exit 1
program=${1:-crates/sg_main/out/sg_main}
if [ $# -gt 0 ] && [ ! -x "$program" ]; then
    echo "$program is no program" >&2
    exit 1
fi
folder=$(mktemp -d) || exit 1
trap 'rm -rf "$folder"' EXIT
records=0 stored=0 differ=0

# What an auditor writes of a record, with its exit status behind it.
told() {
    "$@" < "$record" 2> /dev/null
    echo "status $?"
}

# Says that two answers on the record differ.
must_agree() {
    cmp -s "$folder/$1" "$folder/$2" && return
    echo "$record: $1 says $(head -n 1 "$folder/$1"), $2 $(head -n 1 "$folder/$2")"
    agreed=no
}

for record in vectors/records/*.record examples/*/*.record vectors/asks/*/record bench/made/*.record; do
    [ -f "$record" ] || continue
    records=$((records + 1)) agreed=yes
    told python3 examples/auditor.py > "$folder/auditor.py"
    if [ -x "$program" ]; then
        told "$program" audit > "$folder/program"
        must_agree auditor.py program
    fi
    report=${record%record}report
    if [ -f "$report" ]; then
        stored=$((stored + 1))
        status=1
        [ "$(head -n 1 "$report")" = yes ] && status=0
        { cat "$report" && echo "status $status"; } > "$folder/stored"
        must_agree auditor.py stored
        if [ -x "$program" ]; then
            must_agree program stored
        fi
    fi
    [ $agreed = yes ] || differ=$((differ + 1))
done
[ -x "$program" ] || echo "no program at $program: examples/auditor.py alone"
echo "$records records, $stored of them with a stored report: $((records - differ)) agreed, $differ differ"
[ "$records" -gt 0 ] && [ "$differ" -eq 0 ]
