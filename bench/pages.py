#!/usr/bin/env python3
"""Checks the pages, and runs the commands that they show.

    pages.py                 checks links, sentences, lengths and contents of each page
    pages.py run [PAGE..]    runs the commands of each page, or of these, and compares with what the page shows

At the top of the repository. `run` wants the built program on the PATH as `voldkaumi`; bash, and for some pages curl and
openssl, too.

What is run are the blocks fenced as `console`. In them a line that begins with `$ ` is a command, and one that begins with
`> ` goes on with it. The lines behind a command are what it shows, on both outputs; a line `...` stands for any lines. The
blocks of a page are run in order by one shell, at the top of a copy of the repository that has no crates.

A page is README.md, docs/*.md, examples/*/README.md, page/README.md and vectors/README.md. Ends with status 1 where something is wrong.
"""
import glob
import os
import re
import shutil
import subprocess
import sys
import tempfile

LONGEST_SENTENCE = 30
LONGEST_PAGE = 250
LONGEST_README = 150
LONGEST_README_LINE = 240
LONG_PAGES = {"docs/FORMAT.md", "vectors/README.md"}
CONTENTS_FROM = 60
SECONDS = 600


def pages():
    found = ["README.md"] + sorted(glob.glob("docs/*.md")) + sorted(glob.glob("examples/*/README.md"))
    return found + sorted(glob.glob("page/README.md")) + sorted(glob.glob("vectors/README.md"))


def prose_of(lines):
    """The lines of a page that are no code: each with its number."""
    fenced, before_blank, in_list, in_code = None, True, False, False
    for number, line in enumerate(lines, 1):
        stripped = line.strip()
        if fenced is not None:
            if stripped.startswith(fenced):
                fenced = None
        elif stripped.startswith("```"):
            fenced = "```"
        elif line.startswith("    ") and (before_blank or in_code) and not (in_list and re.match(r" {4,6}\S", line)):
            in_code = True
            continue
        else:
            yield number, line
        in_code = False
        before_blank = not stripped
        if stripped:
            in_list = bool(re.match(r"\s*([-*]|\d+\.) ", line)) or in_list and line.startswith("  ")


# LINKS


def slug(title):
    """The anchor of a heading."""
    title = re.sub(r"[`*]", "", title).strip().lower()
    return re.sub(r"[^\w\- ]", "", title).replace(" ", "-")


def anchors_of(page):
    if not page.endswith(".md"):
        return set()
    lines = open(page, encoding="utf-8").read().splitlines()
    return {slug(re.sub(r"^#+ ", "", line)) for _, line in prose_of(lines) if re.match(r"#+ ", line)}


def bad_links(page, lines):
    for number, line in prose_of(lines):
        for target in re.findall(r"\]\(([^)\s]+)\)", re.sub(r"`[^`]*`", "`", line)):
            if re.match(r"[a-z]+:", target):
                continue
            path, _, anchor = target.partition("#")
            path = os.path.normpath(os.path.join(os.path.dirname(page), path)) if path else page
            if not os.path.exists(path):
                yield number, "no such file: " + target
            elif anchor and anchor not in anchors_of(path):
                yield number, "no such heading: " + target
        for path in re.findall(r"`((?:docs|bench|examples|crates|vectors)/[\w./-]+)`", line):
            if not os.path.exists(path.rstrip("/")) and not re.search(r"\b[A-Z]{4,}\b", path):
                yield number, "no such path: " + path


# SENTENCES


def texts_of(lines):
    """The pieces of prose that sentences stand in: paragraphs, items of lists, cells of tables."""
    piece, first = [], 0
    for number, line in list(prose_of(lines)) + [(len(lines) + 1, "")]:
        is_table = line.lstrip().startswith("|")
        starts = re.match(r"\s*([-*]|\d+\.|#+) ", line)
        if piece and (is_table or starts or not line.strip()):
            yield first, " ".join(piece)
            piece = []
        if is_table:
            for cell in re.split(r"(?<!\\)\|", line.strip().strip("|")):
                yield number, cell
        elif line.strip():
            first = first if piece else number
            piece.append(re.sub(r"^\s*([-*]|\d+\.|#+) ", "", line).strip())


def sentences_of(text):
    text = re.sub(r"`[^`]*`", "code", text)
    text = re.sub(r"\[([^\]]*)\]\([^)]*\)", r"\1", text).replace("*", "")
    return [part for part in re.split(r"(?<=[.!?:])[)\"']?\s+", text) if part]


def long_sentences(lines):
    for number, text in texts_of(lines):
        for sentence in sentences_of(text):
            words = len([word for word in sentence.split() if re.search(r"\w", word)])
            if words > LONGEST_SENTENCE:
                yield number, "%d words: %s .." % (words, " ".join(sentence.split()[:8]))


# LENGTH AND CONTENTS


def bad_length(page, lines):
    most = LONGEST_README if page == "README.md" else LONGEST_PAGE
    if page not in LONG_PAGES and len(lines) > most:
        yield len(lines), "more than %d lines" % most
    if page == "README.md":
        for number, line in enumerate(lines, 1):
            if len(line) > LONGEST_README_LINE:
                yield number, "%d signs in a line" % len(line)


def bad_contents(lines):
    titles = [line[3:] for _, line in prose_of(lines) if line.startswith("## ")]
    if len(lines) < CONTENTS_FROM or len(titles) < 2:
        return
    if "**Contents**" not in lines:
        yield 1, "no contents"
        return
    start = lines.index("**Contents**")
    ends = [at for at, line in enumerate(lines) if at > start and line.startswith("#")]
    listed = re.findall(r"\(#([^)]+)\)", "\n".join(lines[start : ends[0] if ends else None]))
    for title in titles:
        if slug(title) not in listed:
            yield start + 1, "not in the contents: " + title


def check():
    wrong = 0
    for page in pages():
        lines = open(page, encoding="utf-8").read().splitlines()
        faults = list(bad_links(page, lines)) + list(long_sentences(lines)) + list(bad_length(page, lines)) + list(bad_contents(lines))
        for number, fault in sorted(faults):
            print("%s:%d: %s" % (page, number, fault))
        wrong += len(faults)
    print("%d pages, %d faults" % (len(pages()), wrong))
    return wrong


# COMMANDS


def commands_of(lines):
    """Each command of the page: its line, its text, and the lines that it shows."""
    found, in_block = [], False
    for number, line in enumerate(lines, 1):
        text = line.strip() if not in_block else line[indent:]
        if not in_block and text == "```console":
            in_block, indent = True, len(line) - len(line.lstrip())
        elif in_block and text.strip() == "```":
            in_block = False
        elif in_block and text.startswith("$ "):
            found.append((number, [text[2:]], []))
        elif in_block and text.startswith("> ") and not found[-1][2]:
            found[-1][1].append(text[2:])
        elif in_block:
            found[-1][2].append(text)
    return found


def agree(shown, got):
    """Whether the lines are those that are shown, where `...` stands for any lines."""
    pattern = "".join("(.*\n)*" if line.strip() == "..." else re.escape(line) + "\n" for line in shown)
    return re.fullmatch(pattern, "".join(line + "\n" for line in got)) is not None


def run_page(page, top):
    """Runs the commands of a page in one shell, and says which show something else."""
    commands = commands_of(open(page, encoding="utf-8").read().splitlines())
    if not commands:
        return 0
    marker = "@@ %d"
    script = ["exec 2>&1 < /dev/null", "cd '%s'" % top]
    for at, (_, text, _) in enumerate(commands):
        script += ["printf '\\n%s\\n'" % (marker % at)] + text
    script += ["printf '\\n%s\\n'" % (marker % len(commands)), "kill $(jobs -p) 2> /dev/null", "true"]
    done = subprocess.run(["bash", "-c", "\n".join(script)], stdout=subprocess.PIPE, timeout=SECONDS)
    output = "\n" + done.stdout.decode(errors="replace")
    wrong = 0
    for at, (number, text, shown) in enumerate(commands):
        start, end = "\n%s\n" % (marker % at), "\n%s\n" % (marker % (at + 1))
        got = output.partition(start)[2].partition(end)[0].rstrip("\n").splitlines()
        if not agree(shown, got):
            wrong += 1
            print("%s:%d: $ %s\n  shows\n    %s" % (page, number, text[0], "\n    ".join(got) or "(nothing)"))
    print("%s: %d commands, %d show something else" % (page, len(commands), wrong))
    return wrong


def run(chosen):
    wrong = 0
    for page in chosen or pages():
        with tempfile.TemporaryDirectory() as folder:
            top = os.path.join(folder, "voldkaumi")
            shutil.copytree(".", top, ignore=shutil.ignore_patterns("crates", ".git", "out", "__pycache__"))
            wrong += run_page(page, top)
    return wrong


def main():
    os.chdir(os.path.join(os.path.dirname(os.path.abspath(__file__)), ".."))
    if sys.argv[1:] and sys.argv[1] != "run":
        sys.exit(__doc__)
    sys.exit(1 if (run(sys.argv[2:]) if sys.argv[1:] else check()) else 0)


if __name__ == "__main__":
    main()
