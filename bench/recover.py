#!/usr/bin/env python3
"""Measures what reading costs where not each block can be read.

    bench/recover.py [--program PROGRAM] [--rounds N]
    bench/recover.py --build PROGRAM

PROGRAM reads standard input by `RawBibliography::parse` or `recover`, or by those of `Bibliography` (`load` and `keep`), and prints how
many entries it read and how many errors it found; without one it is proved and built from bench/recover/, which takes as long as
`prove.py`. Prints, on one core: for a file without errors the time of `recover` over that of `parse`, the least of the rounds, of both
kinds; and for files with errors how long it takes and how that grows with the file, as a power. With --build the program is only proved and built; `bench/robust.py PROGRAM` then runs it on
hard inputs.
"""
import argparse
import importlib.util
import math
import os
import pathlib
import random
import resource
import shutil
import subprocess
import sys
import tempfile
import time

import building

TOP = pathlib.Path(__file__).resolve().parent.parent


def generated(count):
    """A file without errors, as bench/compare.py makes them."""
    spec = importlib.util.spec_from_file_location("compare", TOP / "bench" / "compare.py")
    compare = importlib.util.module_from_spec(spec)
    spec.loader.exec_module(compare)
    chance = random.Random(1)
    return "".join(compare.entry(chance, number) for number in range(count)).encode()


def built(folder):
    """Proves and builds the program."""
    return building.build("recover", os.path.join(folder, "recover"), ["parse"])


def seconds(program, word, text):
    """The processor time of a run, and what it printed."""
    before = resource.getrusage(resource.RUSAGE_CHILDREN)
    done = subprocess.run([program, word], input=text, stdout=subprocess.PIPE, timeout=600)
    after = resource.getrusage(resource.RUSAGE_CHILDREN)
    return after.ru_utime + after.ru_stime - before.ru_utime - before.ru_stime, done.stdout.decode().strip()


def least(program, word, text, rounds):
    return min(seconds(program, word, text)[0] for _ in range(rounds))


ROWS = [
    ("each tenth entry without its comma", lambda n: b"".join(
        b"@misc{k%d%s title={Some title}, year=1999}\n" % (i, b"" if i % 10 == 0 else b",") for i in range(n)), 20_000),
    ("each block in error", lambda n: b"@misc{k title={x}}\n" * n, 50_000),
    ("at signs alone", lambda n: b"@\n" * n, 100_000),
    ("heads whose braces never close", lambda n: b"@misc{k, t={\n" * n, 100_000),
    ("comments that never close", lambda n: b"@comment{x\n" * n, 100_000),
    ("comments of one line, which ends once", lambda n: b"@misc{k,%\r" * n, 100_000),
    ("quotes and braces in turn", lambda n: b"@misc{k, t=\"{\n@misc{k, t={\"\n" * n, 50_000),
    ("fields behind remarks", lambda n: b"@misc{k, % \", % \"\n x = \"\n" * n, 50_000),
    ("braces that close before an error", lambda n: b"@misc{k, t={\n" * n + b"} x\n" * n, 100_000),
]

BIBLIOGRAPHIES = [
    ("one key", lambda n: b"@misc{k, title={x}}\n" * n, 100_000),
    ("names that stand for nothing", lambda n: b"".join(b"@misc{k%d, title = a%d # b%d}\n" % (i, i, i) for i in range(n)), 50_000),
    ("one field of such names", lambda n: b"@misc{k, title = a" + b"".join(b" # a%d" % i for i in range(n)) + b"}\n", 100_000),
    ("fields that can't be read", lambda n: b"".join(b"@misc{k%d, title = \"x}y\", note = \"}\"}\n" % i for i in range(n)), 50_000),
    ("one cycle", lambda n: b"".join(b"@misc{k%d, crossref={k%d}}\n" % (i, (i + 1) % n) for i in range(n)), 100_000),
    ("cycles of two", lambda n: b"".join(b"@misc{k%d, crossref={k%d}}\n" % (i, i ^ 1) for i in range(n)), 100_000),
    ("a chain into a cycle", lambda n: b"".join(b"@misc{k%d, crossref={k%d}}\n" % (i, min(i + 1, n - 1)) for i in range(n)), 100_000),
    ("dates that can't be inherited", lambda n: b"@book{p, year={x}}\n" + b"".join(b"@inbook{k%d, crossref={p}}\n" % i for i in range(n)), 50_000),
]


def main():
    parser = argparse.ArgumentParser(description=__doc__, formatter_class=argparse.RawDescriptionHelpFormatter)
    parser.add_argument("--program")
    parser.add_argument("--build", metavar="PROGRAM")
    parser.add_argument("--rounds", type=int, default=9)
    given = parser.parse_args()
    if given.build:
        with tempfile.TemporaryDirectory() as folder:
            shutil.move(built(folder), given.build)
        return
    os.sched_setaffinity(0, {min(os.sched_getaffinity(0))})
    with tempfile.TemporaryDirectory() as folder:
        program = given.program or built(folder)
        text = generated(10_000)
        parse, recover = (least(program, word, text, given.rounds) for word in ("parse", "recover"))
        print(f"10,000 entries without errors: recover {recover / parse:.2f} of parse ({recover:.3f} s)")
        load, keep = (least(program, word, text, given.rounds) for word in ("load", "keep"))
        print(f"the same as bibliographies: recover {keep / load:.2f} of parse ({keep:.3f} s)")
        for name, made, count, word in [*((*row, "recover") for row in ROWS), *((*row, "keep") for row in BIBLIOGRAPHIES)]:
            once, said = seconds(program, word, made(count))
            twice, _ = seconds(program, word, made(2 * count))
            power = math.log2(max(twice, 1e-3) / max(once, 1e-3))
            print(f"{name}, {count:,}: {once:.3f} s, twice as many {twice:.3f} s, power {power:.2f}; read and passed over: {said}")


if __name__ == "__main__":
    main()
