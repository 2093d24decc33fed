#!/usr/bin/env bash
# Tests the page that page/build.sh made: its module in node over all records that have a report, and the page in headless
# Chromium and Firefox. Pictures are left in page/out/pictures, to be looked at.
#
#   page/test/run.sh [FOLDER..]     folders of NAME.record and NAME.report; vectors/records where none is named
#
# It wants node 20, chromium and firefox-esr (apt-get install nodejs chromium firefox-esr).
set -u
cd "$(dirname "$0")/.." || exit 1
[ $# -gt 0 ] || set -- ../vectors/records
status=0
node test/vectors.mjs out/sg_page.wasm "$@" || status=1
for browser in chromium firefox; do
    node --experimental-websocket --no-warnings test/page.mjs $browser out/voldkaumi-check.html out/pictures "$@" || status=1
done
exit $status
