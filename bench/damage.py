#!/usr/bin/env python3
"""Runs the commands of `bibkit` that write .bib texts over real files, and compares what BibTeX, bibtool and Biber read before and after.

    bench/damage.py FILE.. [--bibkit PROGRAM] [--crlf] [--only COMMAND,..] [--walks N] [--biber N] [--jobs N] [--seed N]

A FILE may be a folder, of which all .bib files are taken; EVIDENCE.md says which Debian packages have such files. Each command gets a
copy of each file. bench/changes.py has the commands and says what a program has to read of the new text, bench/peers.py calls the
programs, and bench/reasons.py lists the reasons why it may read something else. Each line is one reason for the differences of
one file, command and program. A difference without a reason is printed in full, and the status is then 1. It is 2 if a program is
missing. The tables at the end count files, outputs and reasons. --crlf runs each file once more with line ends of CR LF. --walks N
makes random edits one after another in N files. Biber is slow, so it reads only N small files, 40 without --biber.
"""
import argparse
import collections
import json
import multiprocessing
import os
import pathlib
import random
import re
import shutil
import sys
import tempfile
from typing import NamedTuple

import changes
import peers
import reasons
from changes import REFERENCES, Difference

TOP = pathlib.Path(__file__).resolve().parent.parent
LARGEST, LARGEST_BIBER = 400_000, 30_000
STEPS = 20
TEXTS = ["Plain", "{Br}aced {T}itle", "a # b", 'a "q" b', "50\\% x", "é ü", "x = y, z", "a@b.c", "Knuth, D. and {Big, Co}", "", " two  spaces ",
         '\\"{o} {\\ss}', "line\nbreak", "% no comment", "{a} # {b}", "a}b{c", "{", "}", "\\", "\\{", "x\\}y", "$a_1$ ~ z", "2020-01", "12", "jan", '"',
         '"{"', "\\'e", "{\\", "@misc{b,"]
KEYS = ["new1", "a.b", "X:y", "élan", "a--b", "it's", "a/b", "k+1", "b{", "a b", "a,b", "a#b", "a%b", 'a"b', "a(b", "a)b", "a=b", "a}b", "", "A\\b",
        "a~b", "a@b", "123"]
DEFINITION = re.compile(r"@string\s*\{\s*([^\s=]+)\s*=\s*\{(.*)\}\s*\}", re.I)


class Found(NamedTuple):
    """A difference with its reason, or none."""
    file: str
    command: str
    program: str
    difference: Difference
    reason: str | None


class Result:
    """What happened to a file."""

    def __init__(self, file):
        self.file, self.status, self.found = file, "compared", []
        self.counts = collections.Counter()


class Work:
    """A file in a folder of its own, with what each program reads of it."""

    def __init__(self, name, text, room, options):
        self.name, self.text, self.room, self.options = name, text, room, options
        self.before = {}

    def run(self, command, text):
        """Status, new text and messages of a command that gets this text as its file."""
        file = pathlib.Path(self.room) / "it.bib"
        status, said = 0, b""
        for words in filter(None, (command.words, command.then)):
            file.write_bytes(text)
            named = [os.fsencode("it.bib") if it == "FILE" else it.encode("latin-1") for it in words]
            status, text, new = peers.call([self.options.bibkit, *named], self.room, command.text.encode("latin-1"))
            said += new
            if status != 0:
                break
        return status, text, said.decode("utf-8", "replace")

    def read(self, program, text, is_resolved=False):
        """What a program reads of a text."""
        if program == "biber":
            return peers.biber(text, self.room, is_resolved)
        return {"bibtex": peers.bibtex, "bibtool": peers.bibtool}[program](text, self.room)

    def read_before(self, program, is_resolved=False):
        """What a program reads of the file, asked once."""
        name = program, is_resolved
        if name not in self.before:
            self.before[name] = self.read(program, self.text, is_resolved)
        return self.before[name]


def latin(text):
    """A text with a character for each byte of it."""
    return text.encode().decode("latin-1")


def byte_differences(command, old, new):
    """What no program reads, or all read the same: line ends, comments, and abbreviations that shorten nothing."""
    found = []
    if b"\r\n" in old and not re.search(rb"(?<!\r)\n", old) and re.search(rb"(?<!\r)\n", new):
        found.append(Difference("line ends", before="CR LF", after="LF"))
    comments = lambda text: collections.Counter(it.strip() for it in text.splitlines() if it.strip().startswith(b"%"))
    lost = comments(old) - comments(new)
    found += [Difference("comment lost", before=it.decode("latin-1")) for it in lost]
    if command.name == "collect":
        known = set(DEFINITION.findall(old.decode("latin-1")))
        found += [Difference("long name", name=name, before=text) for name, text in DEFINITION.findall(new.decode("latin-1"))
                  if (name, text) not in known and len(name) >= len(text)]
    return found


def judge(work, command, program, differences, pair, result):
    """Adds differences to a result, each with its reason."""
    source = {it.key.lower(): it for it in work.source}
    for difference in differences:
        case = reasons.Case(command, program, difference, *pair, source, work.text.decode("latin-1"))
        result.found.append(Found(work.name, command.name, program, difference, reasons.reason(case)))


def compare(work, command, result):
    """Runs a command, and compares what each program reads of its output."""
    status, new, said = work.run(command, work.text)
    result.counts[command.name, "files"] += 1
    if status != 0:
        result.counts[command.name, "refused"] += 1
        refusal = Difference("refused", command.key, before=f"status {status}", after=peers.squeezed(said)[:200])
        return judge(work, command, "bibkit", [refusal], (None, None), result)
    judge(work, command, "bytes", byte_differences(command, work.text, new), (None, None), result)
    is_same = new == work.text
    if is_same and command.rule not in ("edited", "renamed", "rekeyed"):
        return None
    result.counts[command.name, "changed"] += not is_same
    for program in work.programs:
        is_resolved = command.rule == "resolved" and program == "biber"
        if command.rule == "back" and program != "bibtex" or command.rule == "resolved" and program == "bibtool":
            continue
        if program == "biber" and command.name not in changes.FOR_BIBER:
            continue
        before = work.read_before(program, is_resolved)
        if not before.entries:
            continue
        after = before if is_same else work.read(program, new, is_resolved)
        found = changes.differences(command, program, before, after, work.source, said)
        result.counts[command.name, program] += 1
        judge(work, command, program, found, (before, after), result)
    return None


def referred(work):
    """The keys that entries refer to, in lower case, as the source and each program read them."""
    lists = [work.source, *(work.read_before(it).entries for it in work.programs if it != "biber")]
    texts = [text for entries in lists for entry in entries for name, text in entry.fields if name in REFERENCES]
    return {it.strip().lower() for text in texts for it in text.split(",")}


def begin(work, result):
    """Reads a file with `bibkit fmt` and each program; false if one of them can't."""
    try:
        work.text.decode()
    except UnicodeDecodeError:
        result.status = "not UTF-8"
        return False
    status, laid_out, said = work.run(changes.LAYOUTS[0], work.text)
    if status != 0:
        result.status = "refused by bibkit"
        print(f"{work.name}: refused: {shown(said)}", flush=True)
        return False
    work.source = peers.printed_entries(laid_out.decode("latin-1"))
    if not work.source or not work.read_before(work.programs[0]).entries:
        result.status = "no entry"
    return result.status == "compared"


def key_commands(work):
    """The command that gives all entries new keys, if no two entries have the same key in any case."""
    status, keys, _ = work.run(changes.KEY_MAP, work.text)
    lower = [it.key.lower() for it in work.source]
    return [changes.rekeying(keys)] if status == 0 and len(set(lower)) == len(lower) else []


def one_file(job):
    """The result of one file."""
    path, is_crlf, options = job
    text = pathlib.Path(path).read_bytes()
    name = "/".join(path.parts[-2:])
    if is_crlf:
        text, name = re.sub(rb"\r?\n", b"\r\n", text), f"{name} (CR LF)"
    result, room = Result(name), tempfile.mkdtemp(dir=options.room)
    work = Work(name, text, room, options)
    work.programs = [it for it in ("bibtex", "bibtool", "biber") if it in options.programs and (it != "biber" or path in options.biber_files)]
    try:
        if begin(work, result):
            result.counts["entries"] += len(work.source)
            chance = random.Random(f"{options.seed} {path.name}")
            strings = [it for it, _ in DEFINITION.findall(text.decode("latin-1"))]
            commands = changes.LAYOUTS + changes.edits(work.source, referred(work), strings, chance)
            for command in commands + key_commands(work):
                if not options.only or command.name in options.only:
                    compare(work, command, result)
            if path in options.walk_files and not is_crlf:
                walk(work, chance, result)
    except peers.NoAnswer as error:
        result.found.append(Found(name, "", "", Difference("no answer", after=str(error)), None))
    finally:
        shutil.rmtree(room, ignore_errors=True)
    return result


def drawn_edit(source, chance):
    """An edit of a random entry, with texts and keys that are hard to write."""
    entry, name = chance.choice(source), chance.choice(["title", "note", "usera", "author", "year", "Note", "month"])
    cased = [it.key.swapcase() for it in source]
    edit = chance.choice(["set", "set", "unset", "rename", "remove", "add"])
    if edit == "set":
        return changes.setting(entry.key, name, latin(chance.choice(TEXTS)))
    if edit == "rename":
        return changes.renaming(entry.key, latin(chance.choice([*KEYS, chance.choice(cased)])))
    if edit == "unset" and entry.fields:
        return changes.unsetting(entry.key, [chance.choice(entry.fields)[0]])
    if edit == "add":
        return changes.adding(latin(chance.choice([*KEYS[:9], chance.choice(cased)])), latin(chance.choice(TEXTS[:14])))
    return changes.removing(entry.key)


def walk(work, chance, result):
    """Random edits one after another. An edit after which a program reads something else is not kept, so each is judged by itself."""
    step_programs = [it for it in work.programs if it != "biber"]
    for _ in range(STEPS):
        free = [it for it in work.source if it.key.lower() not in referred(work) and not REFERENCES & {name for name, _ in it.fields}]
        if not free:
            return
        command = drawn_edit(free, chance)
        command = command._replace(name=f"walk-{command.name}")
        status, new, _ = work.run(command, work.text)
        result.counts[command.name, "files"] += 1
        if status != 0:
            result.counts[command.name, "refused"] += 1
            continue
        result.counts[command.name, "changed"] += new != work.text
        harmed = len(result.found)
        after = {}
        for program in step_programs:
            before, after[program, False] = work.read_before(program), work.read(program, new)
            found = changes.differences(command, program, before, after[program, False], work.source, "")
            result.counts[command.name, program] += 1
            judge(work, command, program, found, (before, after[program, False]), result)
        status, laid_out, _ = work.run(changes.LAYOUTS[0], new)
        if status != 0:
            judge(work, command, "bibkit", [Difference("unreadable", after=command.text or " ".join(command.words))], (None, None), result)
        elif len(result.found) == harmed:
            work.text, work.before, work.source = new, after, peers.printed_entries(laid_out.decode("latin-1"))


# The report.

def shown(text):
    """A text in one line of at most 100 characters."""
    text = json.dumps(text, ensure_ascii=False)[1:-1]
    return text if len(text) <= 100 else text[:97] + ".."


def described(found):
    """A difference in one line."""
    kind, key, name, before, after = found.difference
    return f"{found.file}: {found.command}: {found.program}: {key} {kind} {name}: {shown(before)} -> {shown(after)}"


def print_file(result):
    """Prints the differences of a file: those with a reason in one line for each command, program and reason."""
    groups = collections.defaultdict(list)
    for it in result.found:
        groups[it.command, it.program, it.reason].append(it)
    for (command, program, reason), found in groups.items():
        if reason is None:
            for it in found:
                print(f"NO REASON {described(it)}")
        else:
            print(f"{described(found[0])}{f' and {len(found) - 1} more' if len(found) > 1 else ''} [{reason}]")


def print_commands(results):
    """Prints for each command how many files, changed texts and refusals there are, and of how many outputs a program reads something else."""
    counts, differ = collections.Counter(), collections.Counter()
    for result in results:
        counts.update(result.counts)
        differ.update({(it.command, it.program) for it in result.found})
    columns = ["bibtex", "bibtool", "biber"]
    print(f"\n{'command':16}{'files':>7}{'changed':>9}{'refused':>9}" + "".join(f"{it + ' differs':>20}" for it in columns) + f"{'bytes differ':>14}")
    for command in sorted({it[0] for it in counts if isinstance(it, tuple)}, key=lambda it: changes.NAMES.index(it) if it in changes.NAMES else 99):
        numbers = [f"{differ[command, it]} of {counts[command, it]}" if counts[command, it] else "-" for it in columns]
        row = f"{command:16}{counts[command, 'files']:7}{counts[command, 'changed']:9}{counts[command, 'refused']:9}"
        print(row + "".join(f"{it:>20}" for it in numbers) + f"{differ[command, 'bytes']:14}")


def print_reasons(results):
    """Prints how often each reason holds, in how many files, and an example; then the reasons that hold for nothing."""
    files, outputs, total = collections.defaultdict(set), collections.defaultdict(set), collections.Counter()
    for number, it in ((number, it) for number, result in enumerate(results) for it in result.found):
        files[it.reason].add(number)
        outputs[it.reason].add((number, it.command, it.program))
        total[it.reason] += 1
    print(f"\n{'files':>6}{'outputs':>9}{'differences':>13}  reason")
    for reason in sorted(total, key=lambda it: (-len(files[it]), str(it))):
        print(f"{len(files[reason]):6}{len(outputs[reason]):9}{total[reason]:13}  {reason or 'NO REASON'}")
    unused = [it for it in reasons.texts() if it not in total]
    if unused:
        print("\nreasons that hold for no difference here:", *unused, sep="\n  ")


def arguments():
    """The options of the command line."""
    options = argparse.ArgumentParser(description=__doc__, formatter_class=argparse.RawDescriptionHelpFormatter)
    options.add_argument("files", nargs="+", type=pathlib.Path)
    options.add_argument("--bibkit", default=str(TOP / "crates/bibkit/out/bibkit"))
    options.add_argument("--crlf", action="store_true")
    options.add_argument("--only", default="", help=", ".join(changes.NAMES))
    options.add_argument("--walks", type=int, default=0)
    options.add_argument("--biber", type=int, default=40)
    options.add_argument("--jobs", type=int, default=1)
    options.add_argument("--seed", type=int, default=1)
    asked = options.parse_args()
    asked.only = [it for it in asked.only.split(",") if it]
    if unknown := set(asked.only) - set(changes.NAMES):
        options.error(f"no such command: {', '.join(sorted(unknown))}")
    asked.bibkit = shutil.which(asked.bibkit) or options.error(f"{asked.bibkit} is not there; scripts/prove.py bibkit builds it")
    asked.bibkit = os.path.abspath(asked.bibkit)
    return asked


def prepare(options):
    """The files to be read; adds to the options which programs are here, and which files Biber and the walks get."""
    absent = peers.missing()
    for it in absent:
        print(f"missing: {it} (Debian: {peers.PACKAGES[it]})")
    options.programs = {"bibtex", "bibtool", "biber"} - set(absent) - ({"bibtex"} if "plain.bst" in absent else set())
    if not options.programs & {"bibtex", "bibtool"}:
        sys.exit("damage.py: neither BibTeX nor bibtool is here")
    files = [it for path in options.files for it in (sorted(path.rglob("*.bib")) if path.is_dir() else [path])]
    files = sorted({it.resolve() for it in files if it.is_file()}, key=lambda it: it.stat().st_size)
    small = [it for it in files if it.stat().st_size <= LARGEST]
    print(f"{len(files)} files, {len(files) - len(small)} of them left out since they have more than {LARGEST} bytes", flush=True)
    chance = random.Random(options.seed)
    fit = [it for it in small if it.stat().st_size <= LARGEST_BIBER]
    options.biber_files = set(chance.sample(fit, min(options.biber, len(fit))))
    options.walk_files = set(chance.sample(small, min(options.walks, len(small))))
    return small, absent


def main():
    """Runs all files, and prints what differs and why."""
    options = arguments()
    files, absent = prepare(options)
    results = []
    with tempfile.TemporaryDirectory() as options.room, multiprocessing.Pool(options.jobs) as pool:
        jobs = [(path, is_crlf, options) for path in reversed(files) for is_crlf in ([False, True] if options.crlf else [False])]
        for result in pool.imap_unordered(one_file, jobs):
            results.append(result)
            print_file(result)
            sys.stdout.flush()
    statuses = collections.Counter(it.status for it in results)
    entries = sum(it.counts["entries"] for it in results)
    print("\n" + ", ".join(f"{count} {status}" for status, count in statuses.most_common()) + f"; {entries} entries")
    print_commands(results)
    print_reasons(results)
    unlisted = sum(it.reason is None for result in results for it in result.found)
    print(f"\n{sum(len(it.found) for it in results)} differences, {unlisted} without a reason")
    absent = [it for it in absent if it != "biber" or options.biber]
    if absent:
        print(f"not complete: {', '.join(absent)} missing")
    return 1 if unlisted else 2 if absent else 0


if __name__ == "__main__":
    sys.exit(main())
