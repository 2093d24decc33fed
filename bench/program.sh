# What the benchmarks share. They take it in by `. bench/program.sh`, at the top of the repository.

# Builds the program of a crate, by a run that must succeed, and says where it is.
#
#   program=$(built CRATE ARGUMENT... < INPUT)
built() {
    crate=$1
    shift
    (cd "crates/$crate" && rt run -- "$@") > /dev/null || {
        echo "$crate was not built" >&2
        return 1
    }
    ls -t "crates/$crate/out/$crate" "crates/$crate"/out/*/"$crate" 2> /dev/null | head -1
}

# The least of five times of a command, in microseconds.
best_of_five() {
    best=
    for _ in 1 2 3 4 5; do
        start=$(date +%s%N)
        "$@" > /dev/null
        spent=$((($(date +%s%N) - start) / 1000))
        if [ -z "$best" ] || [ "$spent" -lt "$best" ]; then best=$spent; fi
    done
    echo "$best"
}

# The least of five times of a command that reads a file, in seconds, and the most memory in KB that it held (at least some
# 13,000: what starts it has so many of its own).
#
#   read -r seconds memory <<< "$(best_reading FILE COMMAND..)"
best_reading() {
    python3 - "$@" <<'PY'
import resource, subprocess, sys, time
record, command = sys.argv[1], sys.argv[2:]
times = []
for _ in range(5):
    with open(record, "rb") as source:
        start = time.perf_counter()
        subprocess.run(command, stdin=source, stdout=subprocess.DEVNULL)
        times.append(time.perf_counter() - start)
print("%.4f %d" % (min(times), resource.getrusage(resource.RUSAGE_CHILDREN).ru_maxrss))
PY
}
