#!/usr/bin/env bash
# Tries how the built program takes and ends connections, and how it ends where a descriptor is closed: bodies of 3 and 20 MB,
# which are too long, are told so, by three clients; silent connections and first bytes of TLS keep no other waiting; a log that
# nobody reads ends `serve` with status 4, and each command with a descriptor that is closed ends with its status and its cause.
#
#   bench/connections.sh [PROGRAM]       (at the top of the repository)
set -u
cd "$(dirname "$0")/.." || exit 1
program=$(realpath "${1:-crates/sg_main/out/sg_main}") || exit 1
python="python3 $PWD/bench/connections.py"
club=$PWD/examples/club
folder=$(mktemp -d) || exit 1
server=
trap 'kill "$server" 2> /dev/null; rm -rf "$folder"' EXIT
cd "$folder" || exit 1
port=8652
tries=60

wrong=0
expect() { # NAME EXPECTED GOT
    if [ "$2" = "$3" ]; then echo "$1: $2"; else echo "$1: $3, and not $2"; wrong=$((wrong + 1)); fi
}

# Waits until the port is listened on, while this process lives.
until_listening() { # PROCESS
    until grep -q "0100007F:$(printf %04X $port) 00000000:0000 0A" /proc/net/tcp; do
        kill -0 "$1" 2> /dev/null || { cat causes; exit 1; }
        sleep 0.02
    done
}

"$program" init < "$club/election.json" > begun || exit 1
"$program" serve $port 1000000 > served 2> causes &
server=$!
until_listening $server

for size in 3000000 20000000; do
    expect "$size bytes" "by_client 413: $tries by_urllib 413: $tries by_curl 413: $tries " "$($python bodies $port $size $tries | tr '\n' ' ')"
done
expect "behind 50 silent ones" "a look: 409 soon; TLS: 400" "$($python silent $port 50 50)"
# More than may wait: where the system has no room for a call, the client calls again after a second.
expect "behind 500 silent ones" "a look: 409 soon; TLS: 400" "$($python silent $port 500 3000)"
kill "$server"
wait "$server" 2> /dev/null

(
    "$program" serve $port 3 2> causes
    echo "$?" > status
) | head -1 > first &
until_listening $!
for _ in 1 2 3; do
    curl -s -o /dev/null http://127.0.0.1:$port/totals || break
    sleep 0.2
done
wait
expect "a log that nobody reads" "409 4" "$(cat first) $(cat status)"
expect "descriptors that are closed" "as due: 44 of 44" "$($python closed "$program" "$club" $((port + 1)))"
echo "wrong: $wrong"
exit $((wrong > 0))
