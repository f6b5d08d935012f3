#!/usr/bin/env python3
"""Rewrites files of expected answers to the form in which the tests print answers: tests/expected.py FILE.stdout ..

An expected answer may have a text that is repeated, as `⟨65536×x⟩`. It is written out; an answer of LONG bytes and more becomes
its length and its SHA-256, as tests/src/support/escapes.rs prints it, so that it is compared whole.
"""
import hashlib
import pathlib
import re
import sys

LONG = 5_000
NUMBER = re.compile("⟨([0-9A-F]+)⟩")
REPEATED = re.compile("⟨([0-9]+)×((?:[^⟨⟩]|⟨[0-9A-F]+⟩)*)⟩")


def printed(answer):
    """The answer as the tests print it."""
    answer = REPEATED.sub(lambda found: int(found[1]) * found[2], answer)
    data = NUMBER.sub(lambda found: chr(int(found[1], 16)), answer).encode()
    return answer if len(data) < LONG else f"{len(data)} bytes, SHA-256 {hashlib.sha256(data).hexdigest()}"


def rewritten(line):
    """A row with its answer as it is printed, or a heading as it is."""
    row, arrow, answer = line.partition(" => ")
    return row + arrow + printed(answer) if "|" in row else line


def main(files):
    for file in map(pathlib.Path, files):
        file.write_text("\n".join(map(rewritten, file.read_text().split("\n"))))
    return 0 if files else 2


if __name__ == "__main__":
    sys.exit(main(sys.argv[1:]))
