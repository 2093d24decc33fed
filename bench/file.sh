#!/usr/bin/env bash
# Tries what the program does with its file: changed bytes, folders and disks that are no good, a second program, an empty folder,
# modes, and sqlite3 beside it, which must find the file whole, with the rows that Python's sqlite3 writes. Each status and each
# cause must be as is said here.
#
#   bench/file.sh [PROGRAM [TIMES [FOLDER]]]      (at the top of the repository; 1,000 changed bytes; the files lie in FOLDER, else
#                                                  in /tmp. As root it also mounts a small disk, and works as nobody)
set -u
cd "$(dirname "$0")/.." || exit 1
program=${1:-crates/sg_main/out/sg_main}
[ -x "$program" ] || { echo "there is no program $program"; exit 1; }
program=$(realpath "$program")
times=${2:-1000}
changes="python3 $PWD/bench/file.py"
asker="python3 $PWD/bench/do.py"
club=$PWD/examples/club
folder=$(mktemp -d -p "${3:-/tmp}") || exit 1
server=
trap 'kill "$server" 2> /dev/null; umount "$folder/small" 2> /dev/null; rm -rf "$folder"' EXIT
chmod 755 "$folder"
cp "$program" "$folder/voldkaumi"
program=$folder/voldkaumi
port=8660
wrong=0

expect() { # NAME EXPECTED GOT
    if [ "$2" = "$3" ]; then echo "$1: $2"; else echo "FAILED: $1: $3, and not $2"; wrong=$((wrong + 1)); fi
}

empty() { # NAME: a new empty folder, and the current one
    mkdir "$folder/$1" && cd "$folder/$1" || exit 1
}

# What a command writes, what it says on standard error, and its status.
told() { # COMMAND..
    "$@" > "$folder/out" 2> "$folder/err"
    status=$?
    cat "$folder/out" "$folder/err"
    echo "$status"
}

# The same in one line.
tell() { # NAME EXPECTED COMMAND..
    name=$1
    due=$2
    shift 2
    expect "$name" "$due" "$(told "$@" | tr '\n' ' ' | sed 's/ $//')"
}

as_nobody() { setpriv --reuid=65534 --regid=65534 --clear-groups "$@"; }

begin() { "$program" init < "$club/election.json"; }

asks() { cat "$club"/{voting,close,draw,claims}.jsonl; }

echo "An empty folder stays empty"
empty nothing
for word in record sheet do scans; do
    tell "$word" "refused empty 7" "$program" $word < /dev/null
done
tell serve "refused empty 7" "$program" serve $port 1
expect "what lies there" "" "$(ls -A)"
: > office.db
tell "record over an empty file" "refused empty 7" "$program" record
expect "what lies there" "office.db 0" "$(stat -c '%n %s' -- * | tr '\n' ' ' | sed 's/ $//')"

echo "Modes"
for mask in 000 022 077; do
    empty "mode-$mask"
    (umask $mask && begin > /dev/null)
    (umask $mask && asks | "$program" do > /dev/null)
    expect "under the mask $mask" "office.db 600 office.db-wal 600" "$(stat -c '%n %a' office.db office.db-wal | tr '\n' ' ' | sed 's/ $//')"
done
empty shared
(umask 022 && : > office.db)
begin 2> said > begun
expect "an empty file that others may read" "begun voldkaumi: others may read or write office.db, which has the seed and all secrets: chmod 600 office.db office.db-wal" "$(cat begun said | tr '\n' ' ' | sed 's/ $//')"

echo "What is in the way"
empty folder
mkdir office.db
tell "a folder in its place" "voldkaumi: office.db is not the database of an office: Is a directory (os error 21) 5" "$program" record
empty text
echo "no database, but some text that somebody put here" > office.db
tell "a text" "voldkaumi: office.db is not the database of an office: file is not a database that obeys its schema 5" "$program" record
expect "the text" "no database, but some text that somebody put here" "$(cat office.db)"
empty lone
: > office.db-wal
for word in record sheet; do
    tell "$word with the log alone" "voldkaumi: office.db-wal is here without office.db, to which it belongs 5" "$program" $word
done
tell "init with the log alone" "voldkaumi: office.db-wal is here without office.db, to which it belongs 5" "$program" init < "$club/election.json"
expect "what lies there" "office.db-wal" "$(ls -A)"
if [ -n "$(command -v sqlite3)" ]; then
    empty other
    sqlite3 office.db "CREATE TABLE setup (note TEXT) STRICT; CREATE TABLE ballot (number INTEGER PRIMARY KEY) STRICT"
    tell "other tables" "voldkaumi: office.db is not the database of an office: no such column 5" "$program" record
fi

echo "A second program"
empty second
begin > /dev/null
"$program" serve $port 1000000 > served 2> causes &
server=$!
until grep -q "0100007F:$(printf %04X $port) 00000000:0000 0A" /proc/net/tcp; do
    kill -0 $server 2> /dev/null || { cat causes; exit 1; }
    sleep 0.02
done
for word in record sheet do scans; do
    tell "$word while serve runs" "voldkaumi: another program has office.db open: database is locked 5" "$program" $word < /dev/null
done
kill $server
wait $server 2> /dev/null
server=
tell "behind it" "0" "$program" do < /dev/null

if [ "$(id -u)" = 0 ]; then
    echo "Without permission"
    empty closed
    tell "init in a folder that may not be written" "voldkaumi: office.db may not be read and written: Permission denied (os error 13) 5" as_nobody "$program" init < "$club/election.json"
    begin > /dev/null
    before=$(sha256sum office.db*)
    tell "the office of another account" "voldkaumi: office.db may not be read and written: Permission denied (os error 13) 5" as_nobody "$program" record
    chmod 444 office.db*
    tell "a file that may not be written" "voldkaumi: office.db may not be read and written: Permission denied (os error 13) 5" as_nobody "$program" record
    expect "the files" "$before" "$(sha256sum office.db*)"

    echo "A disk without room"
    cd "$folder" && mkdir small && mount -t tmpfs -o size=600k tmpfs small && cd small || exit 1
    begin > /dev/null
    "$program" do < "$club/voting.jsonl" > ../replies-1
    head -c 1m /dev/zero > filler 2> /dev/null
    cat "$club"/{close,draw,claims}.jsonl > ../rest
    "$program" do < ../rest > ../replies-full 2> ../causes
    expect "the acts of a full disk" '{"error":"store","status":503}' "$(head -1 ../replies-full)"
    expect "the cause, once" "voldkaumi: an act could not be kept: the disk of office.db is full: database or disk is full. When there is room, send the very same ask again" "$(cat ../causes)"
    rm filler
    "$program" do < ../rest > ../replies-2
    expect "the same asks with room" "$(cat "$club/club.replies" | sha256sum)" "$(cat ../replies-1 ../replies-2 | sha256sum)"
    expect "the record" "$(sha256sum < "$club/club.record")" "$("$program" record | sha256sum)"
    mount -o remount,ro "$folder/small"
    tell "a disk that may only be read" "voldkaumi: office.db may not be read and written: Read-only file system (os error 30) 5" "$program" record
    cd "$folder" && umount small
else
    echo "Not root: no small disk, and no other account"
fi

echo "Changed bytes"
empty bytes
begin > /dev/null
asks | "$program" do > /dev/null
"$program" record > ../posted
expect "the record" "$(sha256sum < "$club/club.record")" "$(sha256sum < ../posted)"
ls -l office.db office.db-wal | awk '{ print $9 ": " $5 " bytes" }'
for name in office.db office.db-wal; do
    $changes "$program" "$times" "$folder/bytes" $name || wrong=$((wrong + 1))
done

if [ -n "$(command -v sqlite3)" ]; then
    echo "sqlite3"
    empty beside
    cp ../bytes/office.db* .
    expect "it finds the file whole" "ok" "$(sqlite3 office.db 'PRAGMA integrity_check')"
    expect "the setup" "$(sed '/^ballots/q' "$club/club.record" | head -1)" "$(sqlite3 office.db 'SELECT body FROM setup' | head -1)"
    expect "the acts" "$(sqlite3 office.db 'SELECT count(*) FROM done')" "$(sed -n 's/.*"status":200}.*/x/p' "$club/club.replies" | wc -l | awk '{ print $1 }')"
    expect "the record behind it" "$(sha256sum < "$club/club.record")" "$("$program" record | sha256sum)"

    rows() { # FOLDER: all rows of its office.db but the setup
        for table in "ballot ORDER BY number" "done ORDER BY station, number" stage claim voided; do
            sqlite3 "$1/office.db" "SELECT * FROM $table"
        done
    }
    empty rows
    $asker election 1000 > election.json
    $asker asks 1000 > asks
    "$program" init < election.json > /dev/null
    "$program" do < asks > replies
    mkdir python
    (cd python && $asker do ../election.json < ../asks > replies)
    expect "1,000 scans" "2000 rows, as Python's sqlite3 writes them" "$(rows . | wc -l) rows$(cmp -s <(rows .) <(rows python) && echo ", as Python's sqlite3 writes them")"
fi
echo "$wrong wrong"
[ $wrong = 0 ]
