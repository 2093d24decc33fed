#!/usr/bin/env bash
# Runs the club's election in an empty folder over connections: each ask is sent by curl, and all that comes out is compared
# with the files here.
#
#     serve.sh [PROGRAM [PORT]]     the built program; without one, voldkaumi on the PATH
set -eu
port=${2:-8642}
. "$(dirname "$0")/steps.sh"

fetch() { # PATH CURL-ARGUMENT..: one request; the first waits until the port is listened on
    path=$1
    shift
    curl -sS --retry 9 --retry-connrefused --retry-delay 1 "$@" "http://127.0.0.1:$port$path"
    echo
}

ask() { # LINE: receipts and totals are fetched, and every other ask is posted
    case $1 in
        '{"ask":"totals"}') fetch /totals ;;
        '{"ask":"receipt",'*) fetch "/receipt/${1//[!0-9]/}" ;;
        *) fetch /ask --data-binary "$1" ;;
    esac
}

"$program" init < "$club/election.json" > begun
step "set up" begun <(echo begun)
cat "$club"/{voting,close,draw,claims}.jsonl > asks
"$program" serve "$port" "$(wc -l < asks)" > served &
server=$!
trap 'kill "$server" 2> /dev/null || true; rm -rf "$folder"' EXIT
while read -r line; do
    ask "$line"
done < asks > replies
wait "$server"
step "the replies" replies "$club/club.replies"
step "a status for each connection" served <(sed 's/.*"status":\([0-9]*\).*/\1/' "$club/club.replies")
"$program" record > posted
step "the record" posted "$club/club.record"
"$program" audit < posted
