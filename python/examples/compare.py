"""Measures the time of the other three programs on a generated file, and prints a table. Usage: compare.py [ENTRIES [ROUNDS]]

Each round runs each program once, in its own process. The table has the minimum time of all rounds, without imports, and the peak
memory of that process. It also says whether the results are the same. A library that isn't installed is skipped.
"""

import hashlib
import importlib
import json
import os
import random
import subprocess
import sys
import tempfile
import time
from pathlib import Path

HERE = Path(__file__).resolve().parent
PROGRAMS = {"biblatex": "authors", "bibtexparser": "with_bibtexparser", "pybtex": "with_pybtex"}

FAMILIES = ["Church", "Turing", "Knuth", "G{\\\"o}del", "von Neumann", "Hopper", "de Bruijn", "Lov{\\'a}sz", "Noether", "van der Waerden"]
GIVEN = ["Alonzo", "Alan M.", "Donald E.", "Kurt", "John", "Grace", "Emmy", "Andr{\\'e}"]
WORDS = "a note on the theory of computable numbers with an application to trees groups rings and fields in finite time".split()
JOURNALS = ["Journal of Symbolic Logic", "Annals of Mathematics", "Communications of the {ACM}", "Acta Informatica"]
PUBLISHERS = ["Addison-Wesley", "Springer", "Cambridge University Press"]


def random_entry(index: int, chance: random.Random) -> str:
    """Returns a random entry in the layout of reference managers."""
    people = " and ".join(f"{chance.choice(FAMILIES)}, {chance.choice(GIVEN)}" for _ in range(chance.randint(1, 4)))
    title = " ".join(chance.choice(WORDS) for _ in range(chance.randint(4, 10))).capitalize() + " {LaTeX}"
    entry_type = chance.choice(["article", "book", "inproceedings"])
    place = {
        "article": f"  journal = {{{chance.choice(JOURNALS)}}},\n  volume = {{{index % 90}}},\n  number = {{{index % 12}}},\n",
        "book": f"  publisher = {{{chance.choice(PUBLISHERS)}}},\n  address = {{London}},\n  isbn = {{978-0-{index:06}-1}},\n",
        "inproceedings": f"  booktitle = {{Proceedings of the Symposium {index % 60}}},\n  editor = {{Bell, Ann}},\n",
    }[entry_type]
    first = chance.randint(1, 500)
    return (
        f"@{entry_type}{{key{index},\n  author = {{{people}}},\n  title = {{{title}}},\n{place}"
        f"  year = {{{chance.randint(1930, 2020)}}},\n  month = {chance.choice(['jan', 'may', 'dec'])},\n"
        f"  pages = {{{first}--{first + 12}}},\n  doi = {{10.1000/{index}}},\n}}\n\n"
    )


def peak_memory() -> float:
    """Returns the peak memory of this process in MB, or 0 if the system doesn't report it."""
    try:
        lines = Path("/proc/self/status").read_text().splitlines()
    except OSError:
        return 0.0
    return next(int(line.split()[1]) / 1000 for line in lines if line.startswith("VmHWM"))


def measure(library: str, path: str) -> None:
    """Runs the program of a library, and prints its time, its memory and the hash of its result, as a JSON object.

    Prints null if the library isn't installed.
    """
    try:
        module = importlib.import_module(library)
        program = importlib.import_module(PROGRAMS[library])
    except ImportError:
        print("null")
        return
    text = Path(path).read_text("utf-8")
    start = time.perf_counter()
    found = program.works(text)
    seconds, memory = time.perf_counter() - start, peak_memory()
    result = repr(sorted((author, sorted(listed)) for author, listed in found.items()))
    version = module.version() if library == "biblatex" else module.__version__
    digest = hashlib.sha256(result.encode()).hexdigest()
    print(json.dumps({"version": version, "seconds": seconds, "memory": memory, "result": digest}))


def print_table(rows: dict) -> None:
    """Prints the measured values, and the ratio of each time to that of the first row."""
    first = next(iter(rows.values()))
    print(f"{'library':14} {'version':9} {'seconds':>8} {'times':>7} {'memory':>8}  result")
    for library, row in rows.items():
        same = "the same" if row["result"] == first["result"] else "different"
        ratio = row["seconds"] / first["seconds"]
        print(f"{library:14} {row['version']:9} {row['seconds']:8.3f} {ratio:7.1f} {row['memory']:5.0f} MB  {same}")


def main() -> None:
    count, rounds = (int(word) for word in (sys.argv[1:] + ["10000", "5"][len(sys.argv) - 1 :]))
    chance = random.Random(1984)
    environment = {**os.environ, "PYTHONPATH": os.pathsep.join([str(HERE.parent), os.environ.get("PYTHONPATH", "")])}
    rows = {}
    with tempfile.NamedTemporaryFile("w", suffix=".bib", encoding="utf-8") as file:
        file.writelines(random_entry(index, chance) for index in range(count))
        file.flush()
        print(f"{count} entries, {os.path.getsize(file.name) / 1e6:.1f} MB, minimum of {rounds} rounds, Python {sys.version.split()[0]}")
        for library in list(PROGRAMS) * rounds:
            words = [sys.executable, __file__, "--measure", library, file.name]
            row = json.loads(subprocess.run(words, env=environment, stdout=subprocess.PIPE, check=True).stdout)
            if row is not None:
                rows[library] = min(row, rows.get(library, row), key=lambda measured: measured["seconds"])
    print_table(rows)


if __name__ == "__main__":
    if sys.argv[1:2] == ["--measure"]:
        measure(sys.argv[2], sys.argv[3])
    else:
        main()
