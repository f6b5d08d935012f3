#!/usr/bin/env python3
"""Compares `bibkit resolve` with Biber: resolutions.py FILE.. [--bibkit PROGRAM] [--write FILE | --read FILE] [--most N]

A FILE may be a folder, of which all .bib files with `crossref` or `xdata` are taken. Biber resolves the file, and also the text that
`bibkit resolve` makes of it. Both must have the same entries with the same fields. Biber gets the rules of inheritance of biblatex.def,
and resolves `xdata` first and `crossref` then, as it does for LaTeX. Without a program, --write writes the texts of the files to one
file, with a form feed after each, and --read reads what was made of them. Differences are printed; status 1 if there are any.
"""
import argparse
import collections
import pathlib
import re
import sys
import tempfile

import peers

REFERENCE = re.compile(rb"(?i)\b(crossref|xdata)\s*=")
LARGEST = 400_000


def resolved(text, room):
    """The entries that Biber has of a text, with inherited fields. Each run writes a year and a month as a date, so none is made for nothing."""
    options = ["--output-resolve-xdata"] * (b"xdata" in text.lower()) + ["--output-resolve-crossrefs"]
    for option in options:
        (room / "file.bib").write_bytes(text)
        out = room / "out.bib"
        out.unlink(missing_ok=True)
        words = ["biber", "--tool", "--nodieonerror", "--quiet", f"--configfile={room / 'biber.conf'}", "--output-fieldcase=lower", option,
                 f"--output-file={out}", "file.bib"]
        peers.call(words, room)
        text = out.read_bytes() if out.is_file() else b""
    return peers.printed_entries(text.decode("latin-1"))


def made(bibkit, text, room):
    """What `bibkit resolve` makes of a text; nothing if it refuses it."""
    (room / "it.bib").write_bytes(text)
    status, new, said = peers.call([bibkit, "resolve", "it.bib"], room)
    if status != 0:
        print("refused:", said.decode("utf-8", "replace").strip())
    return new if status == 0 else None


def fields_of(entry):
    """The fields of an entry by name, without references."""
    return {name: value for name, value in entry.fields if name not in ("crossref", "xdata", "ids")}


def compare(name, before, after):
    """Prints and counts the fields that Biber has only before or only after."""
    found = collections.Counter()
    old, new = ({it.key: it for it in entries} for entries in (before, after))
    for key in [*old, *(it for it in new if it not in old)]:
        if key not in old or key not in new:
            found["entry"] += 1
            print(f"{name}: {key}: only {'before' if key in old else 'after'}")
            continue
        one, other = fields_of(old[key]), fields_of(new[key])
        for field in [*one, *(it for it in other if it not in one)]:
            found["fields"] += 1
            if one.get(field) != other.get(field):
                found["lost" if field not in other else "new" if field not in one else "changed"] += 1
                print(f"{name}: {key}: {field}: {one.get(field)!r} {other.get(field)!r}")
    return found


def files(paths):
    """The files with references."""
    for path in map(pathlib.Path, paths):
        for file in sorted(path.rglob("*.bib")) if path.is_dir() else [path]:
            text = file.read_bytes()
            try:
                text.decode()
            except UnicodeDecodeError:
                continue
            if len(text) <= LARGEST and REFERENCE.search(text):
                yield str(file), text


def main():
    parser = argparse.ArgumentParser(description=__doc__.splitlines()[0])
    parser.add_argument("files", nargs="+")
    parser.add_argument("--bibkit", default="bibkit")
    parser.add_argument("--write")
    parser.add_argument("--read")
    parser.add_argument("--most", type=int)
    options = parser.parse_args()
    texts = list(files(options.files))[:options.most]
    if options.write:
        pathlib.Path(options.write).write_bytes(b"".join(text.replace(b"\f", b"") + b"\n\f\n" for _, text in texts))
        return 0
    answers = pathlib.Path(options.read).read_bytes().split(b"\f\n") if options.read else None
    total = collections.Counter()
    with tempfile.TemporaryDirectory() as folder:
        room = pathlib.Path(folder)
        (room / "biber.conf").write_text(peers.configuration())
        for number, (name, text) in enumerate(texts):
            new = answers[number] if answers else made(options.bibkit, text, room)
            if new is None or new.startswith(b"refused"):
                total["refused"] += 1
                print(f"{name}: refused: {(new or b'').decode()}")
                continue
            total["files"] += 1
            total["references"] += len(REFERENCE.findall(text)) - len(REFERENCE.findall(new))
            total += compare(name, resolved(text, room), resolved(new, room))
    print(dict(total))
    return 1 if total["lost"] + total["new"] + total["changed"] + total["entry"] else 0


if __name__ == "__main__":
    sys.exit(main())
