#!/usr/bin/env python3
"""Counts how many entries of real files programs keep, and how long they take: real.py FOLDER [--bibkit PATH] [--bib PATH]

FOLDER has .bib files, at any depth; EVIDENCE.md says which Debian packages have them. Each program gets each file, one after another,
and may take 20 seconds of a processor for it. An entry counts as kept if its key is a key of the output, in any case; of a key that
occurs n times at most n are counted. The keys of a file are those of its lines that look like the head of an entry. Prints a table:
entries kept, files of which all entries are kept, files for which the program ended with an error, and processor seconds for all files.
With --json FILE it also writes the numbers, from which bench/picture.py draws the picture of README.md.
"""
import argparse
import collections
import json
import os
import pathlib
import re
import resource
import shutil
import subprocess
import sys
import tempfile

TOP = pathlib.Path(__file__).resolve().parent.parent
HEAD = re.compile(rb"(?m)^\s*@(\w+)\s*[{(]\s*([^,\s}]+)\s*,")
NO_ENTRY = {b"comment", b"string", b"preamble"}
SECONDS = 20
PYTHON = shutil.which("python3", path="/usr/bin") or sys.executable
PYBTEX = """import sys
from pybtex.database import parse_file
for key in parse_file(sys.argv[1], "bibtex").entries:
    print("@x{" + key + ",")
"""
BIBTEXPARSER = """import sys, bibtexparser
from bibtexparser.bparser import BibTexParser
parser = BibTexParser(common_strings=True, ignore_nonstandard_types=False)
with open(sys.argv[1], encoding="utf-8") as file:
    for entry in bibtexparser.load(file, parser).entries:
        print("@x{" + entry["ID"] + ",")
"""
PANDOC_KEY = re.compile(rb'(?m)^\s*"id":\s*"((?:[^"\\]|\\.)*)"')


def heads(text):
    """How often each key occurs in the heads of entries, in lower case."""
    return collections.Counter(key.lower() for kind, key in HEAD.findall(text) if kind.lower() not in NO_ENTRY)


def limit():
    resource.setrlimit(resource.RLIMIT_CPU, (SECONDS, SECONDS))


def programs(bibkit, bib):
    """The programs that are here: each with its words, where FILE stands for the file, and whether it prints JSON of pandoc."""
    rows = [
        ("bibkit", [bibkit, "keys", "FILE"]),
        ("bib", ["bash", "-c", f'exec {bib} biblatex < "$0"', "FILE"]),
        ("bibclean", ["bibclean", "FILE"]),
        ("bibtool", ["bibtool", "-r", "biblatex", "-i", "FILE"]),
        ("bib2bib", ["bib2bib", "--quiet", "-ob", "/dev/stdout", "FILE"]),
        ("pandoc", ["pandoc", "-f", "biblatex", "-t", "csljson", "FILE"]),
        ("biber", ["biber", "--tool", "--quiet", "--nolog", "--output-file", "-", "FILE"]),
        ("pybtex", [PYTHON, "-c", PYBTEX, "FILE"]),
        ("bibtexparser", [PYTHON, "-c", BIBTEXPARSER, "FILE"]),
    ]
    return [(name, words) for name, words in rows if shutil.which(words[0])]


def keys_of(name, output):
    """The keys in what a program printed."""
    if name == "bibkit":
        return collections.Counter(line.lower() for line in output.splitlines())
    if name == "pandoc":
        return collections.Counter(key.lower() for key in PANDOC_KEY.findall(output))
    return heads(output)


def run(words, file, room):
    """What a program prints for a file, whether it ended well, and the processor seconds that it took."""
    before = resource.getrusage(resource.RUSAGE_CHILDREN)
    copy = pathlib.Path(room) / "file.bib"
    shutil.copy(file, copy)
    with tempfile.TemporaryFile() as out:
        filled = [str(copy) if it == "FILE" else it for it in words]
        ended = subprocess.run(filled, stdout=out, stderr=subprocess.DEVNULL, stdin=subprocess.DEVNULL, cwd=room, preexec_fn=limit)
        out.seek(0)
        output = out.read()
    after = resource.getrusage(resource.RUSAGE_CHILDREN)
    return output, ended.returncode == 0, after.ru_utime + after.ru_stime - before.ru_utime - before.ru_stime


def main():
    options = argparse.ArgumentParser(description=__doc__.splitlines()[0])
    options.add_argument("folder")
    options.add_argument("--bibkit", default=str(TOP / "crates/bibkit/out/bibkit"))
    options.add_argument("--bib", default=str(TOP / "crates/bib/out/bib"))
    options.add_argument("--json")
    asked = options.parse_args()
    files = sorted(pathlib.Path(asked.folder).rglob("*.bib"))
    files = [it for it in files if it.is_file() and heads(it.read_bytes())]
    wanted = {it: heads(it.read_bytes()) for it in files}
    total = sum(sum(keys.values()) for keys in wanted.values())
    print(f"{len(files)} files, {total} entries")
    found = []
    for name, words in programs(asked.bibkit, asked.bib):
        kept, whole, failed, seconds = 0, 0, 0, 0.0
        with tempfile.TemporaryDirectory() as room:
            for file in files:
                output, is_done, spent = run(words, file, room)
                same = sum((keys_of(name, output) & wanted[file]).values())
                kept += same
                whole += same == sum(wanted[file].values())
                failed += not is_done
                seconds += spent
        found.append({"program": name, "kept": kept / total, "whole": whole, "failed": failed, "seconds": round(seconds, 1)})
        print(f"{name:14} {kept:6} entries {100 * kept / total:6.2f} %  {whole:4} files whole  {failed:4} failed  {seconds:7.1f} s", flush=True)
    if asked.json:
        pathlib.Path(asked.json).write_text(json.dumps({"files": len(files), "entries": total, "programs": found}, indent=1) + "\n")


if __name__ == "__main__":
    main()
