#!/usr/bin/env python3
"""Compares a built `bib` with another program on generated bibliographies.

    bench/compare.py OTHER [COMMAND] [--bib PATH] [--rounds N] [--references]
    bench/compare.py OTHER --table [--bib PATH] [--bench PATH] [--rounds N]

OTHER is a program that takes the same argument and reads standard input. Both run in turn on the same files, on one
core, and what is printed are ratios, `bib` over OTHER: processor time (user and system, the least of the rounds), peak
memory, instructions (by valgrind, where it is there), and for each program how its time grows from 1,000 to 100,000
entries, per entry. With --references nine of ten entries refer to another, and inherit five fields of it and its date.

With --table it prints one table of all: reading within a process, by the program of bench/reading and by `OTHER bench ROUNDS FILE
COMMAND`, which prints the least time of a reading in a line `parse: min N ns`; the commands `keys` and `biblatex`; values that are
hard to read fast; and how the time of `bib biblatex` grows up to a million entries.
"""
import argparse
import os
import random
import re
import shutil
import subprocess
import sys
import tempfile

import building

WORDS = ("sparse systems theory survey {Bayesian} {DNA} folding rivers $O(n)$ time methods large weak "
         "assumptions design notes on the of with").split()
NAMES = 'Anna Bj\\"orn Carla Fran\\c{c}ois Gustav José Mih\\\'aly Noor'.split()
FAMILIES = ["Abel", 'M{\\"u}ller', "van der Berg", "Knuth", "O'Brien", "de la Cruz", "{\\AA}str{\\\"o}m"]


def entry(chance, number):
    """One entry of an article, a book or an online source."""
    def title():
        return " ".join(chance.choice(WORDS) for _ in range(chance.randint(5, 12)))

    def people():
        return " and ".join(f"{chance.choice(FAMILIES)}, {chance.choice(NAMES)}" for _ in range(chance.randint(1, 4)))

    kind = chance.choice(["article", "article", "book", "online"])
    fields = {"author": people(), "title": title()}
    if kind == "article":
        fields.update(journal="Journal of {Made-Up} Results", year=str(chance.randint(1960, 2024)),
                      pages=f"{number % 500 + 1}--{number % 500 + 20}", doi=f"10.1234/abc.{number}")
    elif kind == "book":
        fields.update(publisher="Example Press", address="Berlin", date=f"{chance.randint(1900, 2024)}-07")
    else:
        fields.update(url=f"https://example.org/a_b/{number}?x=~y", date="2019")
    if chance.random() < 0.3:
        fields["abstract"] = " ".join(title() for _ in range(6))
    lines = "".join(f"  {name:<10} = {{{value}}},\n" for name, value in fields.items())
    if chance.random() < 0.2:
        lines += "  month      = %s,\n" % chance.choice("jan feb mar".split())
    return f"@{kind}{{key{number},\n{lines}}}\n"


def reference(chance, number):
    """One entry of proceedings, or of a paper in the last ones."""
    def some(words, most):
        return " ".join(chance.choice(words) for _ in range(chance.randint(1, most)))

    if number % 10 == 0:
        kind, fields = "proceedings", {
            "title": some(WORDS, 12), "editor": f"{some(FAMILIES, 1)}, {some(NAMES, 2)}", "publisher": "Example Press",
            "location": "Berlin", "isbn": f"978-3-16-148410-{number % 7}", "year": str(chance.randint(1960, 2024))}
    else:
        kind, fields = "inproceedings", {
            "author": f"{some(FAMILIES, 1)}, {some(NAMES, 2)}", "title": some(WORDS, 12), "crossref": f"key{number // 10 * 10}",
            "pages": f"{number % 500 + 1}--{number % 500 + 20}"}
    lines = "".join(f"  {name:<10} = {{{value}}},\n" for name, value in fields.items())
    return f"@{kind}{{key{number},\n{lines}}}\n"


def generate(path, entries, make):
    chance = random.Random(7)
    with open(path, "w", encoding="utf-8") as file:
        file.write('@string{jacm = "Journal of the {ACM}"}\n\n')
        for number in range(entries):
            file.write(make(chance, number) + "\n")


def run(program, command, path):
    """Processor seconds and peak kilobytes of one run."""
    with open(path, "rb") as text:
        process = subprocess.Popen([program, command], stdin=text, stdout=subprocess.DEVNULL)
        _, status, usage = os.wait4(process.pid, 0)
    if os.waitstatus_to_exitcode(status) not in (0, 4):
        sys.exit(f"{program} {command}: status {status}")
    return usage.ru_utime + usage.ru_stime, usage.ru_maxrss


def measure(programs, command, path, rounds):
    """For each program its least time and its peak memory, measured in turn."""
    best = [(float("inf"), 0) for _ in programs]
    for _ in range(rounds):
        for place, program in enumerate(programs):
            seconds, memory = run(program, command, path)
            best[place] = (min(best[place][0], seconds), max(best[place][1], memory))
    return best


def instructions(program, command, path):
    with open(path, "rb") as text:
        done = subprocess.run(["valgrind", "--tool=callgrind", "--callgrind-out-file=/dev/null", program, command],
                              stdin=text, stdout=subprocess.DEVNULL, stderr=subprocess.PIPE, text=True)
    found = re.search(r"Collected : (\d+)", done.stderr)
    return int(found.group(1)) if found else None


SIZE = 4_000_000
# values of a field that are hard to read fast: what each repeats, and how many bytes it has
HARD = [
    ("words with single spaces", "title", "some words ", SIZE),
    ("single letters with spaces", "title", "a b ", SIZE),
    ("two spaces at a time", "title", "word  ", SIZE),
    ("line ends of CR and LF", "title", "word\r\n", SIZE),
    ("em spaces (U+2003)", "title", "a\u2003", SIZE),
    ("no-break spaces (U+00A0)", "title", "a\u00a0", SIZE),
    ("single hyphens", "title", "a-", SIZE),
    ("a url of backslashes", "url", "\\\\", SIZE),
    ("20 MB of é", "title", "é", 20_000_000),
    ("letters in braces", "title", "{a}b", SIZE),
]


def write_value(path, field, text, size):
    """Writes a file of one entry, with a value of about so many bytes, in pieces: what this process holds counts as its children's."""
    piece = text * (100_000 // len(text.encode()))
    with open(path, "w", encoding="utf-8", newline="") as file:
        file.write("@misc{a, %s={" % field)
        for _ in range(size // len(piece.encode())):
            file.write(piece)
        file.write("}}")


def own_reading(bench, what, path, rounds):
    """The least nanoseconds of a reading within the program of bench/reading."""
    with open(path, "rb") as text:
        return int(subprocess.run([bench, what, str(rounds)], stdin=text, stdout=subprocess.PIPE, check=True).stdout)


def other_reading(other, command, path, rounds):
    """The same within the other program."""
    done = subprocess.run([other, "bench", str(rounds), path, command], stdout=subprocess.PIPE, check=True, text=True)
    return int(re.search(r"parse: min (\d+) ns", done.stdout).group(1))


def compare_readings(chosen, what, command, path):
    """The ratio of the least times of readings within the two programs, which take turns."""
    ours, theirs = [], []
    for _ in range(4):
        ours.append(own_reading(chosen.bench, what, path, chosen.rounds))
        theirs.append(other_reading(chosen.other, command, path, chosen.rounds))
    return min(ours) / min(theirs)


def row(name, time, memory=None):
    print(f"| {name} | {time:.2f} | " + ("" if memory is None else f"{memory:.2f} ") + "|", flush=True)


def compare_all(chosen, folder):
    """Prints the table."""
    programs = [chosen.bib, chosen.other]
    paths = {}
    for name, entries, make in (("entries", 10_000, entry), ("references", 10_000, reference), ("many", 1_000_000, entry)):
        paths[name] = os.path.join(folder, f"{name}.bib")
        generate(paths[name], entries, make)
    print("| input | time | memory |\n|---|---|---|")
    row("raw reading in process", compare_readings(chosen, "raw", "keys", paths["entries"]))
    row("`Bibliography::parse` in process", compare_readings(chosen, "parse", "biblatex", paths["entries"]))
    row("the same with references", compare_readings(chosen, "parse", "biblatex", paths["references"]))
    for command, name in (("keys", "entries"), ("biblatex", "entries"), ("biblatex", "references")):
        ours, theirs = measure(programs, command, paths[name], chosen.rounds)
        row(f"`bib {command}`, {name}", ours[0] / theirs[0], ours[1] / theirs[1])
    for name, field, text, size in HARD:
        path = os.path.join(folder, "hard.bib")
        write_value(path, field, text, size)
        ours, theirs = measure(programs, "biblatex", path, chosen.rounds)
        row(name, ours[0] / theirs[0], ours[1] / theirs[1])
    few = measure([chosen.bib], "biblatex", paths["entries"], chosen.rounds)[0]
    many = measure([chosen.bib], "biblatex", paths["many"], 3)[0]
    row("growth per entry, 10,000 to 1,000,000", many[0] / few[0] / 100, many[1] / few[1] / 100)


def main():
    top = os.path.dirname(os.path.dirname(os.path.abspath(__file__)))
    options = argparse.ArgumentParser(description=__doc__, formatter_class=argparse.RawDescriptionHelpFormatter)
    options.add_argument("other")
    options.add_argument("command", nargs="?", default="keys")
    options.add_argument("--bib", default=os.path.join(top, "crates/bib/out/bib"))
    options.add_argument("--rounds", type=int, default=9)
    options.add_argument("--references", action="store_true")
    options.add_argument("--table", action="store_true")
    options.add_argument("--bench", help="the built program of bench/reading; without one it is proved and built")
    chosen = options.parse_args()
    programs = [chosen.bib, chosen.other]
    os.sched_setaffinity(0, {min(os.sched_getaffinity(0))})
    if chosen.table:
        with tempfile.TemporaryDirectory() as folder:
            chosen.bench = chosen.bench or building.build("reading", os.path.join(folder, "reading"), ["raw", "0"])
            compare_all(chosen, folder)
        return
    print(f"bib {chosen.command} against {os.path.basename(chosen.other)}, one core of {os.cpu_count()}")
    times = {}
    with tempfile.TemporaryDirectory() as folder:
        for entries in (1_000, 10_000, 100_000):
            path = os.path.join(folder, f"{entries}.bib")
            generate(path, entries, reference if chosen.references else entry)
            ours, theirs = measure(programs, chosen.command, path, chosen.rounds)
            times[entries] = (ours[0], theirs[0])
            print(f"{entries:>7} entries, {os.path.getsize(path) / 1e6:.1f} MB: "
                  f"processor time {ours[0] / theirs[0]:.2f}, memory {ours[1] / theirs[1]:.2f}")
            if entries == 10_000 and shutil.which("valgrind"):
                counts = [instructions(program, chosen.command, path) for program in programs]
                if all(counts):
                    print(f"{entries:>7} entries: instructions {counts[0] / counts[1]:.2f}")
    for place, name in enumerate(("bib", "other")):
        for few in (1_000, 10_000):
            growth = (times[100_000][place] / 100_000) / (times[few][place] / few)
            print(f"growth of {name} per entry, {few:,} to 100,000: {growth:.2f}")


if __name__ == "__main__":
    main()
