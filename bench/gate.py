#!/usr/bin/env python3
"""Runs the gate, `rt ci`, and prints how many processor minutes each crate took: its proof, its tests, its must-fail edits.

    gate.py [WORD..]        (at the top of the repository; the words are handed to `rt ci`)

What the gate prints goes to standard error. Every two seconds the processes of the checker are looked at, so what lives
shorter is missed; what was kept from an earlier run costs nothing and has no line. Ends with the status of the gate. Where it
is interrupted or ended by a signal, it ends the gate and prints what was seen so far.
"""
import collections
import os
import signal
import subprocess
import sys
import time

TICKS = os.sysconf("SC_CLK_TCK")


def processes():
    """The number, the parent, the processor seconds and the words of each process."""
    for name in os.listdir("/proc"):
        if name.isdigit():
            try:
                with open(f"/proc/{name}/stat", encoding="ascii", errors="replace") as it:
                    words = it.read().rsplit(")", 1)[1].split()
                with open(f"/proc/{name}/cmdline", "rb") as it:
                    command = it.read().decode(errors="replace").split("\0")
                cwd = os.readlink(f"/proc/{name}/cwd")
            except OSError:
                continue
            yield int(name), int(words[1]), sum(map(int, words[11:13])) / TICKS, command, cwd


def kind_of(command, cwd):
    """What a check is for."""
    if "rt-edit-" in cwd:
        return "edits"
    return "tests" if "--test" in command else "proof"


def look(gate, seen):
    """Notes how long the checks among the gate's descendants have run so far."""
    found = {number: rest for number, *rest in processes()}
    below = {gate}
    for _ in found:
        more = {number for number, (parent, *_) in found.items() if parent in below} - below
        if not more:
            break
        below |= more
    for number in below & found.keys():
        _, seconds, command, cwd = found[number]
        if "--crate-name" in command:
            crate = command[command.index("--crate-name") + 1]
            seen[number, crate, kind_of(command, cwd)] = seconds


def table(seen):
    """A line for each crate, the longest first."""
    sums = collections.defaultdict(collections.Counter)
    for (_, crate, kind), seconds in seen.items():
        sums[crate][kind] += seconds
    yield "| Crate | Proof | Tests | Edits | All |"
    yield "|---|---|---|---|---|"
    for crate, times in sorted(sums.items(), key=lambda it: -sum(it[1].values())):
        cells = [times[kind] for kind in ("proof", "tests", "edits")]
        yield "| `%s` | %s |" % (crate, " | ".join("%.1f" % (it / 60) for it in [*cells, sum(cells)]))
    whole = [sum(times[kind] for times in sums.values()) / 60 for kind in ("proof", "tests", "edits")]
    yield "| all | %s |" % " | ".join("%.0f" % it for it in [*whole, sum(whole)])


def main():
    begun, seen = time.time(), {}
    gate = subprocess.Popen(["rt", "ci", *sys.argv[1:]], stdout=sys.stderr)
    for number in (signal.SIGINT, signal.SIGTERM):
        signal.signal(number, lambda *_: gate.terminate())
    while gate.poll() is None:
        look(gate.pid, seen)
        time.sleep(2)
    print("\n".join(table(seen)))
    print("%.0f minutes" % ((time.time() - begun) / 60))
    sys.exit(gate.returncode)


if __name__ == "__main__":
    main()
