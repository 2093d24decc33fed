#!/usr/bin/env bash
# Times `recount` and `odds` of 200,000 rows beside `sha256sum` of the same bytes, and `county` of 100 towns beside `audit` of
# each, with the most memory that each held.
#
#   bench/court.sh        (at the top of the repository; builds the program first, and makes the inputs once)
set -u
cd "$(dirname "$0")/.." || exit 1
made=bench/made
mkdir -p "$made"
. bench/program.sh
program=$(built sg_auditor audit < examples/first/first.record) || exit 1

given=$made/given-200000
[ -f "$given" ] || python3 bench/record.py 20000 2 --instances 5 --draw 0badcafe --given > "$given" || exit 1
read -r hashed _ <<< "$(best_reading "$given" sha256sum)"
for word in recount odds; do
    read -r seconds memory <<< "$(best_reading "$given" "$program" "$word")"
    first=$("$program" "$word" < "$given" | sed -n 1p)
    echo "$word of $(stat -c %s "$given") bytes ($first): $seconds s, sha256sum $hashed s, $memory KB"
done

for town in {1..100}; do
    [ -f "$made/town-$town" ] || python3 bench/record.py 500 4,3 --instances 2 --draw 00 --seed "$town" > "$made/town-$town" || exit 1
done
for town in {1..100}; do
    [ "$town" = 1 ] || echo next
    cat "$made/town-$town"
done > "$made/county"
audits() {
    for town in {1..100}; do "$program" audit < "$made/town-$town"; done
}
read -r seconds memory <<< "$(best_reading "$made/county" "$program" county)"
read -r _ one <<< "$(best_reading "$made/town-1" "$program" audit)"
echo "county of 100 towns ($("$program" county < "$made/county" | sed -n 1p)): $seconds s, $memory KB; an audit of each: $(best_of_five audits) us in all, $one KB"
