#!/usr/bin/env bash
# Runs the club's election in an empty folder, step by step, and compares all that comes out with the files here.
#
#     run.sh [PROGRAM]     the built program; without one, voldkaumi on the PATH
set -eu
. "$(dirname "$0")/steps.sh"

"$program" init < "$club/election.json" > begun
step "set up" begun <(echo begun)
"$program" sheet > sheet
step "the printer's sheet" sheet "$club/club.sheet"
"$program" record > posted-1
"$program" do < "$club/voting.jsonl" >> replies
"$program" scans < "$club/scans.csv" > scanned
step "the scanners' file" scanned "$club/club.scanned"
"$program" do < "$club/close.jsonl" >> replies
"$program" record > posted-2
for asks in draw claims; do
    "$program" do < "$club/$asks.jsonl" >> replies
    "$program" record > "posted-$asks"
done
step "the replies" replies "$club/club.replies"
step "the record" posted-claims "$club/club.record"
for front in posted-1 posted-2 posted-draw; do
    cmp -n "$(stat -c %s "$front")" "$front" posted-claims && echo "$front: a front of the record"
done
"$program" audit < posted-claims
(cat posted-claims && echo next && cat "$club/north.record") | "$program" county > county
step "both branches" county "$club/club.county"
"$program" openings > openings
step "the openings for a court" openings "$club/club.openings"
(cat posted-claims && echo printing && cat sheet openings) > handed-in
for word in recount odds; do
    "$program" "$word" < handed-in > "$word"
    step "$word" "$word" "$club/club.$word"
done
