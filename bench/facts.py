#!/usr/bin/env python3
"""Compares the facts of bench/facts/*.md with what BibTeX, Biber and bibtool do: facts.py [--print] [WORD ..]
A fact is a heading `###`, sentences, a block ```bib with the text of a .bib file, and a block for each program that was asked.
A block ```aux, if there is one, is the end of the .aux file for BibTeX, which is `dump.aux`, and ```aux:NAME is another .aux file.
A block ```bib:NAME is the file NAME.bib, which BibTeX reads after the first one.
A block of a program has, for each entry, its key and type, then its
fields, two spaces in; messages are last, each after `! `. Biber with inherited fields is ```biber-resolved, the file that
bibtool writes with no option is ```bibtool-output.
With --print, prints what the programs do instead of comparing. With words, takes the facts whose headings contain one of them.
"""
import pathlib
import re
import sys
import tempfile

import peers

FACTS = pathlib.Path(__file__).resolve().parent / "facts"
BLOCK = re.compile(r"^```(\S+)\n(.*?)^```$", re.M | re.S)
PROGRAMS = ("bibtex", "biber", "biber-resolved", "bibtool", "bibtool-output")


def facts():
    """The file, heading and blocks of each fact."""
    for path in sorted(FACTS.glob("*.md")):
        for part in re.split(r"^### ", path.read_text(), flags=re.M)[1:]:
            yield path, part.splitlines()[0], BLOCK.findall(part)


def as_lines(reading):
    """The lines for what a program read."""
    lines = []
    for entry in reading.entries:
        lines.append(f"{entry.key} {entry.entry_type}")
        lines += [f"  {name} = {value}" for name, value in entry.fields]
    preamble = [f"preamble = {reading.preamble}"] if reading.preamble else []
    return "\n".join([*lines, *preamble, *(f"! {it}" for it in reading.all_messages)])


def with_aux(text, blocks, room):
    """What BibTeX reads of files for the citations of an .aux file, and of the files that it inputs. Without one, all entries are cited."""
    files = {"file": text} | {name[4:]: unescaped(block) for name, block in blocks.items() if name.startswith("bib:")}
    for name, content in files.items():
        (room / f"{name}.bib").write_bytes(content)
    for name, block in blocks.items():
        if name.startswith("aux:"):
            (room / name[4:]).write_text(block)
    (room / "dump.bst").write_text(peers.dump_style(b"".join(files.values()).decode("latin-1")), encoding="latin-1")
    head = f"\\relax\n\\bibstyle{{dump}}\n\\bibdata{{{','.join(files)}}}\n"
    (room / "dump.aux").write_text(head + blocks.get("aux", "\\citation{*}\n"))
    peers.call(["bibtex", "dump"], room)
    entries, preamble = peers.dumped(peers.written(room / "dump.bbl"))
    return peers.Reading(entries, [], sorted(peers.bibtex_messages(peers.written(room / "dump.blg"))), preamble)


def bibtool_output(text, room):
    """The text that bibtool writes with no option."""
    (room / "tool.bib").write_bytes(text)
    _, output, said = peers.call(["bibtool", "tool.bib"], room)
    said = [f"! {peers.squeezed(it)}" for it in said.decode("latin-1").splitlines() if "***" in it]
    return "\n".join([*(it.rstrip() for it in output.decode("latin-1").splitlines() if it.strip()), *said])


def reading(program, text, blocks):
    """The lines for what a program makes of a text."""
    with tempfile.TemporaryDirectory() as name:
        room = pathlib.Path(name)
        if program == "bibtool-output":
            return bibtool_output(text, room)
        if program == "bibtex" and any(name == "aux" or name.startswith("bib:") for name in blocks):
            return as_lines(with_aux(text, blocks, room))
        call = {"bibtex": peers.bibtex, "bibtool": peers.bibtool}.get(program, peers.biber)
        options = {"is_resolved": True} if program == "biber-resolved" else {}
        return as_lines(call(text, room, **options))


def unescaped(block):
    """The bytes of a text, in which `\\r` at the end of a line is CR."""
    return re.sub(r"\\r$", "\r", block, flags=re.M).encode()


def main(words):
    """Compares, or prints, and returns the status."""
    if absent := peers.missing():
        sys.exit(f"missing: {', '.join(f'{it} (Debian: {peers.PACKAGES[it]})' for it in absent)}")
    prints = "--print" in words
    words = [it.lower() for it in words if it != "--print"]
    compared, different = 0, 0
    for path, heading, blocks in facts():
        if words and not any(it in heading.lower() for it in words):
            continue
        named = dict(blocks)
        if "bib" not in named or not any(it in named for it in PROGRAMS):
            sys.exit(f"{path.name}: {heading}: has no block for a text, or none for a program")
        for program in PROGRAMS:
            if program not in named:
                continue
            found = reading(program, unescaped(named["bib"]), named)
            compared += 1
            if prints:
                print(f"### {heading}\n```{program}\n{found}\n```")
            elif found.strip() != named[program].strip():
                different += 1
                print(f"{path.name}: {heading}: {program} reads\n{found}\ninstead of\n{named[program]}")
    print(f"facts: {compared} readings, {different} different")
    return 1 if different or not compared else 0


if __name__ == "__main__":
    sys.exit(main(sys.argv[1:]))
