#!/usr/bin/env bash
# Feeds `audit` what no office would post, and prints the report, the status, the time and the peak memory of each; and tries
# outputs that nobody takes.
#
#   bench/hostile.sh        (at the top of the repository)
set -u
cd "$(dirname "$0")/.." || exit 1
. bench/program.sh
program=$(built sg_main audit < crates/sg_main/stdin) || exit 1
first=examples/first/first.record

try() {
    name=$1
    shift
    python3 - "$program" "$name" "$@" <<'PY'
import resource, subprocess, sys, time
program, name, shell = sys.argv[1], sys.argv[2], sys.argv[3]
start = time.perf_counter()
done = subprocess.run(["bash", "-c", "(%s) | %s audit; exit ${PIPESTATUS[1]}" % (shell, program)], capture_output=True)
print("%-34s %-16s status %d  %.2f s  %.1f MB" % (name, done.stdout.decode().strip().split("\n")[0], done.returncode,
      time.perf_counter() - start, resource.getrusage(resource.RUSAGE_CHILDREN).ru_maxrss / 1024))
PY
}

try "no byte" "true"
try "1 MB of random bytes" "head -c 1000000 /dev/urandom"
try "an endless line" "yes | tr -d '\\n'"
try "60 MB without a line feed" "head -c 60000000 /dev/zero"
try "CR LF line ends" "sed 's/\$/\r/' $first"
try "a version, then an endless line" "head -1 $first; yes | tr -d '\\n'"
try "an endless stream of first lines" "yes 'scantegrity2 1'"
try "the record, then 60 MB more" "cat $first; head -c 60000000 /dev/zero"

cuts=0
wrong=0
size=$(stat -c %s "$first")
for ((at = 0; at < size; at++)); do
    report=$(head -c "$at" "$first" | "$program" audit)
    [ "$report" = "no $(($(head -c "$at" "$first" | tr -cd '\n' | wc -c) + 1)) form" ] || wrong=$((wrong + 1))
    cuts=$((cuts + 1))
done
echo "the record cut at each of its $cuts bytes: $wrong wrong"

# Whoever reads the output is gone, or its disk is full: status 4, and the cause.
python3 - "$program" "$first" <<'PY'
import os, subprocess, sys
program, first = sys.argv[1:]
for words in (("audit",), ("sample", "7", "30")):
    for sink in ("closed pipe", "full disk"):
        if sink == "full disk":
            writer = os.open("/dev/full", os.O_WRONLY)
        else:
            reader, writer = os.pipe()
            os.close(reader)
        with open(first) as source:
            done = subprocess.run((program, *words), stdin=source, stdout=writer, stderr=subprocess.PIPE, text=True)
        os.close(writer)
        print("%-12s %-11s status %d  %s" % (words[0], sink, done.returncode, done.stderr.strip()))
PY
