#!/usr/bin/env bash
# Refuses requests for memory one at a time, and counts how the runs ended: each must give its ordinary status, or 9, and
# keep what its replies say.
#
#     [MOST=300] [PORT=8643] memory.sh PROGRAM     the built program, and how many of a command's requests are tried at most
#
# It wants gcc, curl, python3 and sqlite3, and a program that asks the C library for memory.
set -eu
program=$(realpath "$1")
here=$(cd "$(dirname "$0")" && pwd)
club=$here/../examples/club
record=$here/../examples/first/first.record
folder=$(mktemp -d)
trap 'rm -rf "$folder"' EXIT

cat > "$folder/refuse.c" <<'C'
#define _GNU_SOURCE
#include <dlfcn.h>
#include <errno.h>
#include <stdio.h>
#include <stdlib.h>
#include <string.h>
static long calls, refused = -1;
static long number(const char *name) { const char *text = getenv(name); return text ? atol(text) : 0; }
static int is_refused(void) {
    if (refused < 0) refused = number("REFUSED");
    return ++calls == refused;
}
#define REAL(name) static __typeof__(&name) real; if (!real) real = (__typeof__(&name))dlsym(RTLD_NEXT, #name)
void *malloc(size_t n) { REAL(malloc); if (is_refused()) { errno = ENOMEM; return NULL; } return real(n); }
void *realloc(void *p, size_t n) { REAL(realloc); if (is_refused()) { errno = ENOMEM; return NULL; } return real(p, n); }
void *aligned_alloc(size_t a, size_t n) { REAL(aligned_alloc); if (is_refused()) { errno = ENOMEM; return NULL; } return real(a, n); }
int posix_memalign(void **p, size_t a, size_t n) { REAL(posix_memalign); if (is_refused()) return ENOMEM; return real(p, a, n); }
__attribute__((destructor)) static void tell(void) {
    const char *name = getenv("CALLS");
    FILE *out = name ? fopen(name, "w") : NULL;
    if (out) { fprintf(out, "%ld\n", calls); fclose(out); }
}
C
gcc -O1 -shared -fPIC -o "$folder/refuse.so" "$folder/refuse.c" -ldl

# how many acts are kept
kept() {
    [ -e office.db ] || { echo 0; return; }
    sqlite3 office.db 'select count(*) from done' 2>/dev/null || echo 0
}

# how many acts the replies say are accepted, each once however often it came
accepted() { # ASKS REPLIES
    python3 - "$1" "$2" <<'PY'
import json, sys
stamps = set()
for ask, reply in zip(open(sys.argv[1]), open(sys.argv[2])):
    ask = json.loads(ask)
    if json.loads(reply)["status"] == 200 and ask["ask"] not in ("receipt", "totals"):
        stamps.add((ask["station"], ask["ref"]))
print(len(stamps))
PY
}

# whether the acts kept are those that were told, or, where memory was wanted for the line of the last, one more
is_told() { # STATUS KEPT TOLD
    [ "$2" = "$3" ] || { [ "$1" = 9 ] && [ "$2" = $(($3 + 1)) ]; }
}

# how often each number stands in a list
tally() {
    echo "$1" | tr ' ' '\n' | grep . | sort -n | uniq -c | awk '{printf " %sx%s", $1, $2}'
}

try() { # INPUT WORDS..: the command with each request refused, from the office in start/
    local input=$1 ordinary status refused=1 total step counts="" bad=0
    shift
    rm -rf work && cp -r start work && cd work
    set +e
    CALLS="$folder/calls" LD_PRELOAD="$folder/refuse.so" "$program" "$@" < "$input" > ../ordinary 2> ../said
    ordinary=$?
    set -e
    cd ..
    total=$(cat "$folder/calls")
    step=$((total / ${MOST:-300} + 1))
    while [ "$refused" -le "$total" ]; do
        rm -rf work && cp -r start work && cd work
        set +e
        REFUSED=$refused LD_PRELOAD="$folder/refuse.so" "$program" "$@" < "$input" > ../out 2> ../said
        status=$?
        set -e
        counts="$counts $status"
        if [ "$1" = do ] && ! is_told "$status" "$(kept)" "$(accepted "$input" ../out)"; then bad=$((bad + 1)); fi
        cd ..
        refused=$((refused + step))
    done
    echo "$*: $total requests, each ${step}th refused; ordinary status $ordinary; refused:$(tally "$counts"); kept otherwise than replied: $bad"
}

# one ask over a connection with each request refused: the statuses that were sent, and those that the program ended with
try_serve() {
    local port=${PORT:-8643} ask refused=1 total step sent="" counts="" status code
    ask='{"ask":"spoil","station":0,"secret":"73746174696f6e2d6e756d6265722d30","ref":900,"ballot":9}'
    total=0
    while [ "$refused" = 1 ] || [ "$refused" -le "$total" ]; do
        rm -rf work && cp -r start work && cd work
        REFUSED=$([ "$total" = 0 ] && echo 0 || echo "$refused") CALLS="$folder/calls" LD_PRELOAD="$folder/refuse.so" "$program" serve "$port" 1 > ../out 2> ../said &
        code=000
        while [ "$code" = 000 ] && kill -0 $! 2> /dev/null; do
            code=$(curl -s -o ../answer -w '%{http_code}' -m 5 --data-binary "$ask" "http://127.0.0.1:$port/ask" || true)
        done
        sent="$sent $code"
        set +e
        wait $!
        status=$?
        set -e
        counts="$counts $status"
        cd ..
        if [ "$total" = 0 ]; then total=$(cat calls); step=$((total / ${MOST:-300} + 1)); sent=""; counts=""; else refused=$((refused + step)); fi
    done
    echo "serve: $total requests, each ${step}th refused; sent:$(tally "$sent"); ended:$(tally "$counts")"
}

cd "$folder"
mkdir start
try "$record" audit
try "$club/election.json" init
(cd start && "$program" init < "$club/election.json" > /dev/null)
cat "$club"/voting.jsonl "$club"/close.jsonl "$club"/draw.jsonl "$club"/claims.jsonl > asks
try /dev/null sheet
try "$folder/asks" do
try "$club/scans.csv" scans
try_serve
(cd start && "$program" do < "$folder/asks" > /dev/null)
try /dev/null record
try /dev/null openings
(cat "$club/club.record" && echo printing && cat "$club/club.sheet" "$club/club.openings") > handed-in
try "$folder/handed-in" recount
try "$folder/handed-in" odds
(cat "$club/club.record" && echo next && cat "$club/north.record") > records
try "$folder/records" county
try /dev/null sample 7 10
