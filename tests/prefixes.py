#!/usr/bin/env python3
"""Cuts each worked example short at every character, and runs a built `bib` on each prefix.

    tests/prefixes.py PROGRAM

The examples are the rows `cuts` of tests/rows/bibliographies.stdout. `keys` and `biblatex` must read each prefix, with status 0, or
refuse it with one line that begins with `error: `, and status 1. The span of a syntax error must lie in the prefix. On a whole example
`biblatex` must print the error that the row wants, or none if the row says `parsed`. The status of this script is 1 if a run is
wrong, or if there are no runs.
"""
import concurrent.futures
import os
import pathlib
import re
import subprocess
import sys

TOP = pathlib.Path(__file__).resolve().parent.parent
SYNTAX = re.compile(r"error: (?:unexpected|expected) [a-z ]+: (\d+)-(\d+)\n")
ROWS = TOP / "tests" / "rows" / "bibliographies.stdout"


def examples(rows):
    """The text of each row `cuts`, with characters in place of their numbers, and its answer."""
    for row in rows.split("\n"):
        if row.startswith("cuts|"):
            text, _, answer = row.removeprefix("cuts|").partition(" => ")
            yield re.sub("⟨([0-9A-F]+)⟩", lambda found: chr(int(found[1], 16)), text), answer


def run(program, word, text):
    """The status and the output of the program."""
    done = subprocess.run([program, word], input=text.encode(), stdout=subprocess.PIPE)
    return done.returncode, done.stdout.decode()


def wrong(status, output, prefix):
    """Why a run on this prefix is wrong, or nothing."""
    if status == 0:
        return "" if not output.startswith("error: ") else "an error with status 0"
    if status != 1 or not re.fullmatch(r"error: .*\n", output):
        return f"status {status}, {output!r}"
    place = SYNTAX.fullmatch(output)
    if place and not int(place[1]) <= int(place[2]) <= len(prefix.encode()):
        return f"a place outside: {output!r}"
    return ""


def unwanted(status, output, answer):
    """Why the run of `biblatex` on a whole example is wrong, or nothing."""
    if answer == "parsed":
        return "" if status == 0 else f"refused: {output!r}"
    return "" if (status, output) == (1, f"error: {answer}\n") else f"status {status}, {output!r}, and not {answer}"


def faults(program, text, answer):
    """The number of runs on the prefixes of an example, and the faults of each."""
    runs, found = 0, []
    for end in range(len(text) + 1):
        for word in ("keys", "biblatex"):
            status, output = run(program, word, text[:end])
            why = wrong(status, output, text[:end])
            if not why and word == "biblatex" and end == len(text):
                why = unwanted(status, output, answer)
            runs += 1
            found += [f"{word} on {text[:end]!r}: {why}"] if why else []
    return runs, found


def main(words):
    if len(words) != 1:
        print(__doc__, file=sys.stderr)
        return 2
    program = os.path.abspath(words[0])
    texts = list(examples(ROWS.read_text(encoding="utf-8")))
    runs, found = 0, []
    with concurrent.futures.ThreadPoolExecutor() as pool:
        for more, wrong_ones in pool.map(lambda it: faults(program, *it), texts):
            runs, found = runs + more, found + wrong_ones
    for it in found:
        print(it)
    print(f"prefixes: {len(texts)} examples, {runs} runs, {len(found)} failed")
    return 1 if found or not runs else 0


if __name__ == "__main__":
    sys.exit(main(sys.argv[1:]))
