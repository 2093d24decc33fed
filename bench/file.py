"""Changes single bytes of an office's file, and looks at what the program makes of it.

    file.py PROGRAM TIMES FOLDER FILE [SEED]

FOLDER has a good office. TIMES times one random byte of its FILE, `office.db` or `office.db-wal`, is changed in a copy, and
`record` is run there. It must be refused with status 5 and a cause, or write the same record: never another one. Of the log a
front of the commits may be what is left, so there a front of the record, or an office that is not set up, is told apart.
"""
import collections
import os
import random
import shutil
import subprocess
import sys
import tempfile


def record(program, folder):
    ran = subprocess.run([program, "record"], cwd=folder, stdin=subprocess.DEVNULL, stdout=subprocess.PIPE, stderr=subprocess.PIPE)
    return ran.returncode, ran.stdout, ran.stderr.decode().strip()


def copied(folder, to):
    for name in ("office.db", "office.db-wal"):
        if os.path.exists(os.path.join(to, name)):
            os.remove(os.path.join(to, name))
        if os.path.exists(os.path.join(folder, name)):
            shutil.copy(os.path.join(folder, name), to)


def change(path, draw):
    """Changes one byte: where it is, and what it was and is."""
    with open(path, "r+b") as file:
        at = draw.randrange(os.path.getsize(path))
        file.seek(at)
        old = file.read(1)[0]
        new = (old + draw.randrange(1, 256)) % 256
        file.seek(at)
        file.write(bytes([new]))
    return at, old, new


def outcome(good, got, is_log):
    """What came of a change, in words; nothing where it must not come."""
    status, text, said = got
    if status == 5 and not text and said.startswith("voldkaumi: "):
        return "refused: " + said[len("voldkaumi: "):]
    if status == 0 and text == good:
        return "the same record"
    if is_log and status == 7 and text == b"refused empty\n":
        return "no office any more"
    if is_log and status == 0 and good.startswith(text):
        return "a front of the record"
    return None


def main(program, times, folder, name, seed="1"):
    program, draw = os.path.realpath(program), random.Random(int(seed))
    status, good, said = record(program, folder)
    if status:
        sys.exit("FAILED: the office is not good: %d %s" % (status, said))
    counts, wrong = collections.Counter(), 0
    with tempfile.TemporaryDirectory() as there:
        for _ in range(int(times)):
            copied(folder, there)
            at, old, new = change(os.path.join(there, name), draw)
            got = record(program, there)
            what = outcome(good, got, name.endswith("-wal"))
            if what is None:
                wrong += 1
                print("FAILED: byte %d of %s, %d to %d: status %d, %r, %s" % (at, name, old, new, got[0], got[1][:60], got[2]))
            else:
                counts[what] += 1
    for what, count in counts.most_common():
        print("%s: %d times: %s" % (name, count, what))
    sys.exit(wrong > 0)


if __name__ == "__main__":
    main(*sys.argv[1:])
