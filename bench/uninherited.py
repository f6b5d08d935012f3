#!/usr/bin/env python3
"""Compares the notes of `bibkit resolve --not-inherited` with Biber: uninherited.py [--bibkit PROGRAM] [--write FILE | --read FILE]

Makes an entry and a parent for each pair of entry types with a `crossref`, and for each entry type with an `xdata`. Each third entry, and
each second one with an `xdata`, has some of the parent's fields itself. Biber resolves all entries. A field of the parent is missing if the
resolved entry has no field with its name, and none with its value, which occurs nowhere else. The notes must name exactly the missing
fields. Without a program, --write writes the entries to a file, and --read reads the notes on it. Prints the differences; status 1 if there
are any.
"""
import argparse
import pathlib
import re
import sys
import tempfile

import peers
import resolutions

TYPES = """article book mvbook inbook bookinbook suppbook collection mvcollection incollection suppcollection proceedings mvproceedings
inproceedings reference mvreference inreference periodical suppperiodical misc thesis online""".split()
NAMES = """title subtitle titleaddon shorttitle indextitle indexsorttitle label shorthand shorthandintro relatedstring relatedtype entrysubtype
execute note publisher editor author location annotation keywords abstract type""".split()
# Biber prints these fields of a parent. It leaves out `sorttitle`, `sortkey`, `presort`, `relatedoptions` and `entryset`.
PARENT = {name: f"v{name}" for name in NAMES} | {
    "options": "useprefix=true", "related": "other", "langid": "english", "title+an": "1=vtitlean", "editor+an": "1=veditoran"}
OWN = {"label": "ownlabel", "shorttitle": "ownshort", "options": "useprefix=false", "shorthand": "ownshorthand", "title+an": "1=ownan",
       "note": "ownnote", "title": "owntitle"}
NOTE = re.compile(r"[^:]*:\d+:\d+: note: entry `c(\d+)` doesn't inherit (.*) of `p(\d+)`")


def entry(entry_type, key, fields):
    """The text of an entry."""
    return f"@{entry_type}{{{key},\n" + ",\n".join(f"  {name} = {{{value}}}" for name, value in fields.items()) + "\n}\n"


def entries():
    """The texts of a parent and an entry for each pair."""
    pairs = [(parent, child, "crossref") for parent in TYPES for child in TYPES]
    pairs += [("xdata", child, "xdata") for child in TYPES for _ in range(2)]
    for number, (parent, child, link) in enumerate(pairs):
        own = OWN if number % (3 if link == "crossref" else 2) == 0 else {"isbn": "own"}
        yield entry(parent, f"p{number}", PARENT) + entry(child, f"c{number}", own | {link: f"p{number}"})


def fields_of(found):
    """The fields of an entry that Biber printed. It adds `:default` to an annotation without a name."""
    return {name.removesuffix(":default"): value for name, value in found.fields}


def missing(text, room):
    """For each number, the names of the parent's fields that the resolved entry has under no name."""
    (room / "biber.conf").write_text(peers.configuration())
    found = {it.key: fields_of(it) for it in resolutions.resolved(text.encode(), room)}
    for number in range(sum(key.startswith("c") for key in found)):
        parent, child = found[f"p{number}"], found[f"c{number}"]
        yield number, sorted(name for name, value in parent.items() if name not in child and value not in child.values())


def notes(bibkit, text, room):
    """The notes of `bibkit`."""
    (room / "it.bib").write_text(text)
    return peers.call([bibkit, "resolve", "--not-inherited", "it.bib"], room)[2].decode()


def main():
    parser = argparse.ArgumentParser(description=__doc__.splitlines()[0])
    parser.add_argument("--bibkit", default="bibkit")
    parser.add_argument("--write")
    parser.add_argument("--read")
    options = parser.parse_args()
    text = "".join(entries()) + entry("misc", "other", {"title": "vother"})
    if options.write:
        pathlib.Path(options.write).write_text(text)
        return 0
    with tempfile.TemporaryDirectory() as folder:
        room = pathlib.Path(folder)
        said = pathlib.Path(options.read).read_text() if options.read else notes(options.bibkit, text, room)
        reported = {int(it[1]): sorted(re.findall("`([^`]*)`", it[2])) for it in NOTE.finditer(said) if it[1] == it[3]}
        wanted = dict(missing(text, room))
    differ = [number for number in sorted({*wanted, *reported}) if wanted.get(number, []) != reported.get(number, [])]
    for number in differ:
        print(f"c{number}: Biber: {wanted.get(number)}, notes: {reported.get(number)}")
    print({"entries": len(wanted), "fields": sum(map(len, wanted.values())), "different": len(differ)})
    return 1 if differ else 0


if __name__ == "__main__":
    sys.exit(main())
