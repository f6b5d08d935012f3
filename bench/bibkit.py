#!/usr/bin/env python3
"""Measures a built `bibkit` against a built `bib`.

    bench/bibkit.py [--bib PATH] [--bibkit PATH] [--rounds N] [--entries N]

Both run in turn on the same files, on one core. Printed are ratios: of `bibkit lint` to `bib check`, of `bibkit keys`, `get`, `set` and `fmt` to `bib keys`,
of `bibkit convert` to CSL-JSON, JSON and RIS to `bib biblatex`, each in processor time (user and system, the least of the rounds) and peak memory; how the time of `lint` for an entry grows from a
hundredth of the entries to all; the peak memory of `lint --each` over many files, one of which is much larger than the others, to that of
the largest alone; and `bibkit merge` to three times `bib keys`, with its peak memory as a multiple of the file.
"""
import argparse
import importlib.util
import os
import pathlib
import random
import subprocess
import tempfile

TOP = pathlib.Path(__file__).resolve().parent.parent


def entries(count, first=0):
    """So many entries, as bench/compare.py makes them."""
    spec = importlib.util.spec_from_file_location("compare", TOP / "bench" / "compare.py")
    compare = importlib.util.module_from_spec(spec)
    spec.loader.exec_module(compare)
    chance = random.Random(7)
    return "".join(compare.entry(chance, first + number) + "\n" for number in range(count))


def changed(text, first):
    """The text with another title in each hundredth entry with a title, from this one on."""
    parts = text.split("  title      = {")
    return "".join(("" if not at else "  title      = {New " if at % 100 == first else "  title      = {") + part for at, part in enumerate(parts))


def run(words, path=None):
    """Processor seconds and peak kilobytes of one run, which reads this file as its standard input."""
    with open(path or os.devnull, "rb") as text:
        process = subprocess.Popen(words, stdin=text, stdout=subprocess.DEVNULL, stderr=subprocess.DEVNULL)
        _, status, usage = os.wait4(process.pid, 0)
    if os.waitstatus_to_exitcode(status) not in (0, 1, 4):
        raise SystemExit(f"bibkit.py: {' '.join(words)} ended with status {os.waitstatus_to_exitcode(status)}")
    return usage.ru_utime + usage.ru_stime, usage.ru_maxrss


def least(runs, rounds):
    """The least time and memory of each of these runs, which take turns."""
    found = [[] for _ in runs]
    for _ in range(rounds):
        for number, (words, path) in enumerate(runs):
            found[number].append(run(words, path))
    return [tuple(min(it[part] for it in rows) for part in (0, 1)) for rows in found]


def main():
    parser = argparse.ArgumentParser(description=__doc__.splitlines()[0])
    parser.add_argument("--bib", default=str(TOP / "crates/bib/out/bib"))
    parser.add_argument("--bibkit", default=str(TOP / "crates/bibkit/out/bibkit"))
    parser.add_argument("--rounds", type=int, default=5)
    parser.add_argument("--entries", type=int, default=100_000)
    words = parser.parse_args()
    os.sched_setaffinity(0, {min(os.sched_getaffinity(0))})
    with tempfile.TemporaryDirectory() as folder:
        large, small = os.path.join(folder, "large.bib"), os.path.join(folder, "small.bib")
        pathlib.Path(large).write_text(entries(words.entries), encoding="utf-8")
        pathlib.Path(small).write_text(entries(words.entries // 100), encoding="utf-8")
        edit = ["set", "key7", "note=new", "--file"]
        conversions = [(["convert", "--to", target], "biblatex") for target in ("csl", "json", "ris")]
        for mine, theirs in (["lint"], "check"), (["keys"], "keys"), (["get", "key7"], "keys"), (edit, "keys"), (["fmt"], "keys"), *conversions:
            (time, memory), (other, less) = least([([words.bibkit, *mine, large], None), ([words.bib, theirs], large)], words.rounds)
            print(f"bibkit {' '.join(mine)} / bib {theirs}, {words.entries} entries: time {time / other:.2f}, memory {memory / less:.2f}")
        (time, memory), (first, _) = least([([words.bibkit, "lint", large], None), ([words.bibkit, "lint", small], None)], words.rounds)
        print(f"bibkit lint, time of an entry, {words.entries} / {words.entries // 100} entries: {time / first / 100:.2f}")
        many = [os.path.join(folder, f"{number}.bib") for number in range(20)]
        for number, path in enumerate(many):
            pathlib.Path(path).write_text(entries(words.entries // 100, number), encoding="utf-8")
        (_, over_all), = least([([words.bibkit, "lint", "--each", *many[:10], large, *many[10:]], None)], 1)
        print(f"bibkit lint --each, memory of 21 files / of the largest: {over_all / memory:.2f}")
        versions = [os.path.join(folder, name) for name in ("base.bib", "ours.bib", "theirs.bib")]
        text = pathlib.Path(large).read_text(encoding="utf-8")
        for path, version in zip(versions, (text, changed(text, 1), changed(text, 51))):
            pathlib.Path(path).write_text(version, encoding="utf-8")
        (time, memory), (other, _) = least([([words.bibkit, "merge", *versions], None), ([words.bib, "keys"], large)], words.rounds)
        size = os.path.getsize(large) / 1024
        print(f"bibkit merge / three bib keys, {words.entries} entries: time {time / other / 3:.2f}, memory {memory / size:.1f} times the file")


if __name__ == "__main__":
    main()
