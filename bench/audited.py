#!/usr/bin/env python3
"""The records that the part `records` of crates/cases audits, and what must be printed of them: made and checked without the
program.

    audited.py         checks both; status 1 where something is not as it must be
    audited.py make    makes both anew, but for the first records and for what is printed of offices

The input has 50 records of another implementation, which no script makes, and after them those of refused.py, of altered.py and
of vectors.py, each after a line with its name and the number of its bytes. Printed are the name of each with the exit status,
and its report. A line after them says how many records are read as lists and written back as the same bytes: those that are
whole and break no rule of form, whatever other rules they break. What is printed after that line is of offices that the
program makes itself.

The reports are those that the scripts say, and of the first 50 those that stand there. The check compares each of them with
examples/auditor.py too, and the records of vectors/ with the files of that folder.
"""
import io
import os
import subprocess
import sys
import tempfile

from parts import bytes_of, crate_of, input_of, put, told_of

HERE = os.path.dirname(os.path.abspath(__file__))
PART = "records"
RECORDS = os.path.join(HERE, "..", "vectors", "records")
OTHERS = 50  # records of another implementation, at the front
SCRIPTS = [["refused.py"], ["altered.py"], ["vectors.py", "stream"]]
PREFIX = "vectors/"  # of the names of the records of vectors/
COUNT = "read and written back: %d\n"


def records_of(stream):
    """The records of a stream, each with its name."""
    while stream:
        head, _, stream = stream.partition(b"\n")
        name, size = head.decode().split(" ")
        yield name, stream[: int(size)]
        stream = stream[int(size) :]


def reports_of(text, names):
    """The reports of the records of these names, and the text after them."""
    lines = text.splitlines(keepends=True)
    found, at = [], 0
    for name in names:
        if lines[at].split(" ")[0] != name:
            raise ValueError("%s, and not %s" % (lines[at], name))
        status, end = int(lines[at].split(" ")[1]), at + 2
        while status == 0 and lines[end].startswith("total "):
            end += 1
        found.append((status, "".join(lines[at + 1 : end])))
        at = end
    return found, "".join(lines[at:])


def made():
    """What the scripts say: the bytes of the stream, and the text of the reports."""
    stream, reports = b"", b""
    with tempfile.TemporaryDirectory() as folder:
        for script, *words in SCRIPTS:
            told = [os.path.join(folder, name) for name in ("stream", "reports")]
            subprocess.run([sys.executable, script, *words, *told], cwd=HERE, check=True)
            stream += bytes_of(told[0])
            reports += bytes_of(told[1])
    return stream, reports.decode()


def others():
    """The same of the first records, as they stand in the crate, and what is printed after all reports."""
    kept = list(records_of(input_of(PART)))
    reports, behind = reports_of(told_of(PART).decode(), [name for name, _ in kept])
    stream = b"".join(b"%s %d\n%s" % (name.encode(), len(text), text) for name, text in kept[:OTHERS])
    texts = ["%s %d\n%s" % (name, status, report) for (name, _), (status, report) in zip(kept[:OTHERS], reports)]
    return stream, "".join(texts), behind.split("\n", 1)[1]


def wanted():
    """Both files as they must be."""
    (front, first, of_offices), (stream, reports) = others(), made()
    stream = front + stream
    formed = sum(is_formed(text) for _, text in records_of(stream))
    return stream, first + reports + COUNT % formed + of_offices


# THE OTHER AUDITOR


def auditor():
    """examples/auditor.py, by its names."""
    names = {"__name__": "auditor"}
    exec(compile(bytes_of(HERE, "..", "examples", "auditor.py"), "auditor.py", "exec"), names)
    return names


def auditor_of_form():
    """The same without any rule but those of form."""
    names = auditor()
    demand = names["demand"]
    names["demand"] = lambda holds, kind="form": demand(holds or kind != "form")
    names["judge_code"] = lambda record, ballot, r, c, secret, code: ballot.rows[r] * record.races[r].k + c
    names["Instance"].judge = lambda instance, words, row: instance.form(words)
    return names


FORM = auditor_of_form()


def is_formed(text):
    return FORM["audit"](io.BytesIO(text))[1] == 0


def check():
    """Says what is not as it must be, and answers how much is."""
    given, told = input_of(PART), told_of(PART).decode()
    stream, text = wanted()
    wrong = [name for name, is_made in (("the input", given == stream), ("what must be printed", told == text)) if not is_made]
    kept = list(records_of(given))
    reports, behind = reports_of(told, [name for name, _ in kept])
    audit = auditor()["audit"]
    for (name, record), (status, report) in zip(kept, reports):
        if audit(io.BytesIO(record))[:2] != (report, status):
            wrong.append("the report of " + name)
        if name.startswith(PREFIX):
            path = os.path.join(RECORDS, name[len(PREFIX) :])
            if bytes_of(path + ".record") != record or bytes_of(path + ".report").decode() != report:
                wrong.append("the files of " + name)
    for what in wrong:
        print("not as it must be: " + what)
    of_vectors = sum(name.startswith(PREFIX) for name, _ in kept)
    print("%d records, %d of them of vectors/; %s; %d faults" % (len(kept), of_vectors, behind.split("\n")[0], len(wrong)))
    return len(wrong)


def make():
    stream, text = wanted()
    with open(os.path.join(crate_of(PART), "data", PART), "wb") as file:
        file.write(stream)
    put(PART, text.encode("ascii"))
    return 0


def main():
    if sys.argv[1:] not in ([], ["make"]):
        sys.exit(__doc__)
    sys.exit(1 if (make() if sys.argv[1:] else check()) else 0)


if __name__ == "__main__":
    main()
