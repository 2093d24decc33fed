#!/usr/bin/env bash
# Tries `serve` with the built program over a real office.db: each route and each refusal by curl, clients that are no good, a
# keeper that fails; then times 10,000 asks by `wrk` (Debian's package of that name), each on a connection of its own, beside
# `do` and beside Python's http.server, json and sqlite3 doing the same rows with the same commits; and watches the memory
# over 100,000 connections.
#
#   bench/serve.sh [FOLDER]       (at the top of the repository; the files lie in FOLDER, on the disk to be timed)
set -u
cd "$(dirname "$0")/.." || exit 1
. bench/program.sh
program=$(built sg_main audit < examples/first/first.record) || exit 1
program=$PWD/$program
python="python3 $PWD/bench/serve.py"
asker="python3 $PWD/bench/do.py"
lua=$PWD/bench/serve.lua
club=$PWD/examples/club
folder=$(mktemp -d -p "${1:-/tmp}") || exit 1
server=
trap 'kill "$server" 2> /dev/null; rm -rf "$folder"' EXIT
cd "$folder" || exit 1
port=8642
at=$port
url=http://127.0.0.1:$port

# Starts a command that listens on the port, in the background, and waits until it does.
start() {
    "$@" > served 2> causes &
    server=$!
    until grep -q "0100007F:$(printf %04X "$at") 00000000:0000 0A" /proc/net/tcp; do
        kill -0 "$server" 2> /dev/null || { cat causes; exit 1; }
        sleep 0.02
    done
}

stop() {
    kill "$server" 2> /dev/null
    wait "$server" 2> /dev/null
}

begin() { # ELECTION: a new office.db
    rm -f office.db office.db-wal office.db-shm
    "$program" init < "$1" > begun || exit 1
}

wrong=0
expect() { # NAME EXPECTED GOT
    if [ "$2" = "$3" ]; then echo "$1: $2"; else echo "$1: $3, and not $2"; wrong=$((wrong + 1)); fi
}

# What curl is answered: the body, and the method that is allowed where the answer says so.
tell() { # NAME EXPECTED CURL-ARGUMENT..
    name=$1
    due=$2
    shift 2
    expect "$name" "$due" "$(curl -s -o body -D head "$@"; cat body; sed -n 's/^Allow: \(.*\)\r$/ \1/p' head)"
}

echo "Routes and refusals, by curl"
begin "$club/election.json"
start "$program" serve $port 1000000
tell "POST /ask" '{"over":[],"status":200}' --data-binary "$(head -1 "$club/voting.jsonl")" $url/ask
tell "POST /ask, refused" '{"error":"fate","fate":"cast","status":409}' --data-binary "$(head -1 "$club/voting.jsonl" | sed 's/"ref":1/"ref":99/')" $url/ask
tell "GET /receipt/1" '{"error":"phase","phase":"voting","status":409}' $url/receipt/1
tell "GET /receipt/01" '{"error":"route","status":404}' $url/receipt/01
tell "GET /totals?x=1" '{"error":"phase","phase":"voting","status":409}' "$url/totals?x=1"
tell "GET /" '{"error":"route","status":404}' $url/
tell "DELETE /ask" '{"error":"method","status":405} POST' -X DELETE $url/ask
tell "POST /totals" '{"error":"method","status":405} GET' --data-binary x $url/totals
tell "no length" '{"error":"length","status":411}' -X POST -H 'Content-Length:' $url/ask
tell "chunks" '{"error":"length","status":411}' -H 'Transfer-Encoding: chunked' --data-binary x $url/ask
tell "no number" '{"error":"length","status":400}' -H 'Content-Length: +1' --data-binary x $url/ask
head -c 65537 /dev/zero | tr '\0' ' ' > long
tell "65,537 bytes" '{"error":"size","status":413}' -H 'Expect:' --data-binary @long $url/ask
head -c 65536 long > longest
tell "65,536 bytes" '{"error":"json","status":400}' -H 'Expect:' --data-binary @longest $url/ask
head -c 3000000 /dev/zero > longer
tell "3,000,000 bytes" '{"error":"size","status":413}' -H 'Expect:' --data-binary @longer $url/ask
tell "no ask" '{"error":"shape","status":400}' --data-binary '{"ask":"all"}' $url/ask
tell "a head of 8,193 bytes" '{"error":"head","status":400}' -H "A: $(head -c 8192 /dev/zero | tr '\0' a)" $url/totals
for at in $(seq 70); do echo "A$at: b"; done > headers
tell "70 header lines" '{"error":"headers","status":431}' -H @headers $url/totals
expect "a second program" "5" "$("$program" serve 8643 1 2> /dev/null; echo $?)"
stop

echo "Clients that are no good, and what the next one gets"
begin "$club/election.json"
start "$program" serve $port 1000000
for kind in silent slow endless long early half; do
    $python $kind $port
done
expect "the lines" "read failed 409 read failed 409 431 409 409 409 gone 409 400 409" "$(tr '\n' ' ' < served | sed 's/ $//')"
stop

echo "A keeper that fails: the file may not grow"
begin "$club/election.json"
vote() { # each ask of the voting
    while read -r line; do
        curl -s --data-binary "$line" $url/ask > body
    done < "$club/voting.jsonl"
}
limit=$(($(stat -c %s office.db-wal) / 1024 + 100))
start bash -c "trap '' XFSZ; ulimit -f $limit; exec '$program' serve $port 1000000"
vote
stop
expect "the statuses" "200 200 200 200 200 409 200 200 200 200 503 409 " "$(tr '\n' ' ' < served)"
start "$program" serve $port 1000000
vote
stop
expect "asked again, of another" "200 200 200 200 200 409 200 200 200 200 200 409 " "$(tr '\n' ' ' < served)"

asks=10000
clients=4
$asker election $asks > election.json
$asker asks $asks > asks

# The seconds that a command takes.
seconds() {
    start=$(date +%s%N)
    "$@" > got || exit 1
    awk -v spent=$(($(date +%s%N) - start)) 'BEGIN { print spent / 1e9 }'
}

# How many asks a second the server at the port answers: 0 where it does not accept them all. One client's ports are too few
# for two rounds at one port of the server, as each stays with it for a minute.
asked() { # SECONDS that are enough
    wrk -t 1 -c $clients -d "$1s" -s "$lua" "http://127.0.0.1:$at" -- asks | tail -1 > got
    awk -v asks=$asks '$1 == asks { print int($1 / ($3 - $2)) } $1 != asks { print 0 }' got
}

echo "$asks asks a second, $clients clients at once"
for round in 1 2 3; do
    begin election.json
    opening=$(seconds "$program" do < /dev/null)
    begin election.json
    doing=$(seconds "$program" do < asks)
    do_rate=$(awk -v asks=$asks -v a="$doing" -v b="$opening" 'BEGIN { print int(asks / (a - b)) }')
    begin election.json
    at=$((port + 2 * round))
    start "$program" serve $at 1000000
    ours=$(asked 4)
    stop
    rm -f office.db office.db-wal office.db-shm
    at=$((at + 1))
    start $python server election.json $at
    theirs=$(asked 12)
    stop
    shares=$(awk -v ours="$ours" -v doing="$do_rate" -v theirs="$theirs" 'BEGIN { if (theirs > 0) printf "%.2f and %.1f times", ours / doing, ours / theirs }')
    echo "round $round: serve $ours, do $do_rate, Python's server $theirs: ${shares:-some were not accepted}"
done

echo "Memory over connections"
at=$port
begin "$club/election.json"
start "$program" serve $port 120000
for count in 100 9900 100000; do
    begun_at=$(date +%s%N)
    $python look $port $count > got
    echo "$(cat got) more: $(sed -n 's/^VmRSS:[ \t]*//p' /proc/$server/status), $((count * 1000000000 / ($(date +%s%N) - begun_at))) a second"
done
stop
echo "wrong: $wrong"
exit $((wrong > 0))
