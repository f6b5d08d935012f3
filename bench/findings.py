#!/usr/bin/env python3
"""Counts what checkers report about .bib files: findings.py BIBKIT FILE ..

Runs `bibkit lint` on each file, and beside it each of Biber (`--tool --validate-datamodel`), BibTeX (`plain.bst`, all entries) and bibclean
that is installed. Prints how many findings of each code and messages of each kind they report in how many files. The kind of a message is its
text without names, keys, numbers and places. A program that takes longer than a minute for a file is stopped, and counted as `stopped`.
"""
import collections
import json
import pathlib
import re
import shutil
import subprocess
import sys
import tempfile

MOST_SECONDS = 60
MOST_KINDS = 25
# What is left out of a message for its kind: the place of a BibTeX error, quoted texts, names of files, BibTeX's key, and numbers.
PATTERNS = (r"---line .*", r"`[^']*'", r"'[^']*'", r'"[^"]*"', r"\([^)]*\)", r"\S+\.bib\S*", r" in \S+$", r"\d+", r"\s+")
PARTS = [(re.compile(pattern), " ") for pattern in PATTERNS]


def run(words, room, text=None):
    """The output of a program in a folder, both streams, or `None` if it took too long."""
    try:
        done = subprocess.run(words, cwd=room, input=text, capture_output=True, timeout=MOST_SECONDS, check=False)
    except subprocess.TimeoutExpired:
        return None
    return (done.stdout + done.stderr).decode("utf-8", "replace")


def kind(message):
    """A message without what tells it from others of its kind."""
    for part, other in PARTS:
        message = part.sub(other, message)
    return message.strip()


def bibkit_kinds(program, file, room):
    """The code of each finding of `bibkit lint`."""
    said = run([program, "lint", "--format", "json", file], room)
    return ["stopped"] if said is None else [f"{it['severity']} {it['code']}" for it in json.loads(said)]


def biber_kinds(file, room):
    """The kind of each warning and error of Biber."""
    said = run(["biber", "--tool", "--validate-datamodel", "--output-file", f"{room}/out.bib", file], room)
    return ["stopped"] if said is None else [kind(it) for it in said.splitlines() if it.startswith(("WARN", "ERROR"))]


def bibtex_kinds(file, room):
    """The kind of each warning and error of BibTeX."""
    shutil.copy(file, f"{room}/file.bib")
    pathlib.Path(f"{room}/file.aux").write_text("\\citation{*}\n\\bibstyle{plain}\n\\bibdata{file}\n")
    said = run(["bibtex", "file"], room)
    if said is None:
        return ["stopped"]
    log = pathlib.Path(f"{room}/file.blg").read_text(errors="replace")
    return [kind(it) for it in log.splitlines() if it.startswith("Warning--") or "---line" in it]


def bibclean_kinds(file, room):
    """The kind of each warning and error of bibclean."""
    said = run(["bibclean", "-no-fix-names", file], room)
    return ["stopped"] if said is None else [kind(it) for it in said.splitlines() if it.startswith(("%%", "??"))]


def main(words):
    if len(words) < 2:
        sys.exit("usage: findings.py BIBKIT FILE ..")
    program, files = str(pathlib.Path(words[0]).resolve()), [str(pathlib.Path(it).resolve()) for it in words[1:]]
    checkers = {"bibkit": lambda file, room: bibkit_kinds(program, file, room)}
    checkers |= {name: call for name, call in (("biber", biber_kinds), ("bibtex", bibtex_kinds), ("bibclean", bibclean_kinds)) if shutil.which(name)}
    for name, call in checkers.items():
        found, where = collections.Counter(), collections.Counter()
        for file in files:
            with tempfile.TemporaryDirectory() as room:
                kinds = collections.Counter(call(file, room))
            found += kinds
            where += collections.Counter(kinds.keys())
        print(f"{name}: {sum(found.values())} in {len(files)} files")
        for one, count in found.most_common(MOST_KINDS):
            print(f"{count:8} in {where[one]:4} files: {one}")


if __name__ == "__main__":
    main(sys.argv[1:])
