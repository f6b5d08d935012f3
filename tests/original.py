#!/usr/bin/env python3
"""Runs a built `bib` on many inputs, and compares it with what the Rust crate `biblatex` 0.12.0 printed: tests/original.py [PROGRAM]

tests/original/outputs.jsonl has the inputs, and what the Rust crate printed of each, with its status; tests/original/make.py made it.
`bib` must print the same with the same status, except on the inputs of tests/original/differences.jsonl. Each of these has the name of
a rule, and what `bib` must print by that rule, for each command that differs. tests/original/rules.txt lists the rules, with the words
by which their rows of docs/DIFFERENCES.md begin.

The status is 1 if a run is wrong, if a rule has no row or no input, if an input of a difference isn't recorded or doesn't differ, or if
fewer than 500 inputs are recorded. Without a program nothing is run, and only the lists are tested.
"""
import concurrent.futures
import json
import os
import pathlib
import subprocess
import sys

TOP = pathlib.Path(__file__).resolve().parent.parent
FOLDER = TOP / "tests" / "original"
COMMANDS = ("keys", "biblatex", "bibtex", "check")
LEAST = 500


def rows(name):
    """The objects in the lines of a file; a command that names another one gets that one's output."""
    for line in (FOLDER / name).read_text(encoding="utf-8").rstrip("\n").split("\n"):
        row = json.loads(line)
        for command in COMMANDS:
            if isinstance(row.get(command), str):
                row[command] = row[row[command]]
        yield row


def faults_of_rules(differences):
    """Each rule that has no row in docs/DIFFERENCES.md or no input, and each that isn't listed."""
    document = (TOP / "docs" / "DIFFERENCES.md").read_text(encoding="utf-8")
    rules = dict(line.split(": ", 1) for line in (FOLDER / "rules.txt").read_text(encoding="utf-8").rstrip("\n").split("\n"))
    used = {row["rule"] for row in differences}
    for name, start in rules.items():
        if f"\n| {start}" not in document:
            yield f"docs/DIFFERENCES.md has no row that begins with the words of {name}: {start}"
    for name in sorted(used ^ set(rules)):
        yield f"the rule {name} has no input, or isn't in rules.txt"


def faults_of_differences(recorded, differences):
    """Each difference that isn't one from what is recorded."""
    original = {row["in"]: row for row in recorded}
    for row in differences:
        if row["in"] not in original:
            yield f"no output is recorded of the input {row['in']!r}"
        for command in COMMANDS:
            if command in row and row[command] == original.get(row["in"], {}).get(command):
                yield f"{row['rule']}: {command} doesn't differ on {row['in']!r}"


def run(program, command, text):
    """The status and the output of the program."""
    done = subprocess.run([program, command], input=text.encode(), stdout=subprocess.PIPE, stderr=subprocess.DEVNULL)
    return [done.returncode, done.stdout.decode(errors="replace")]


def faults_of_runs(program, row, wanted):
    """The commands that print something else than the original, or than what is wanted in its place."""
    for command in COMMANDS:
        want, found = wanted.get(command, row[command]), run(program, command, row["in"])
        if found != want:
            yield f"{command} on {row['in']!r}:\n    {found}, and not\n    {want}"


def main(words):
    if len(words) > 1:
        print(__doc__, file=sys.stderr)
        return 2
    recorded, differences = list(rows("outputs.jsonl")), list(rows("differences.jsonl"))
    wanted = {row["in"]: row for row in differences}
    faults = [*faults_of_rules(differences), *faults_of_differences(recorded, differences)]
    if len(recorded) < LEAST:
        faults.append(f"{len(recorded)} inputs are recorded, and not {LEAST}")
    runs = 0
    for word in words:
        program, runs = os.path.abspath(word), len(COMMANDS) * len(recorded)
        with concurrent.futures.ThreadPoolExecutor() as pool:
            for found in pool.map(lambda row: list(faults_of_runs(program, row, wanted.get(row["in"], {}))), recorded):
                faults += found
    for it in faults:
        print(it)
    print(f"original: {len(recorded)} inputs, {runs} runs, {len(differences)} inputs that differ by a rule, {len(faults)} failed")
    return 1 if faults else 0


if __name__ == "__main__":
    sys.exit(main(sys.argv[1:]))
