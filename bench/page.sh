#!/usr/bin/env bash
# Times the page in headless Chromium and Firefox, beside the program and, where it is there, beside examples/auditor.py. The
# records are those of `bench/audit.sh`: a town, and the longest record.
#
#   bench/page.sh        (at the top of the repository; it wants node, chromium and firefox-esr)
set -u
cd "$(dirname "$0")/.." || exit 1
. bench/program.sh
program=$(built sg_main audit < crates/sg_main/stdin) || exit 1
page=page/voldkaumi-check.html
mkdir -p bench/made
town=bench/made/town.record
longest=bench/made/longest.record
[ -f $town ] || python3 bench/record.py 1700 4,3 --instances 5 --draw "$(printf '0%.0s' {1..64})" --audited 50 --spoiled 50 > $town || exit 1
[ -f $longest ] || python3 bench/longest.py > $longest || exit 1

wc -c $page
for browser in chromium firefox; do
    node --experimental-websocket --no-warnings page/test/times.mjs $browser $page 5 $town $longest
done
for record in $town $longest; do
    echo "$record: the program $(best_reading $record "$program" audit), sha256sum $(best_reading $record sha256sum) (seconds, and KB at most)"
    [ ! -f examples/auditor.py ] || echo "examples/auditor.py $(best_reading $record python3 examples/auditor.py)"
done
