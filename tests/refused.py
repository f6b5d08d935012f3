#!/usr/bin/env python3
"""Refuses each growth of memory in turn, and looks at every answer: tests/refused.py [PROGRAM]

Calls of the library: the program of tests/refused/ makes each of CALLS on a worked example. `rt try` builds it without a proof from the
sources of the library, with checks of each access, so that it is refused its growth number REFUSED. In one run after another it first
makes fewer growths of its own, so that each growth of the call is refused once. Each answer must be the right one, or out of memory with
nothing changed and with the entry or the chunks handed back.

PROGRAM, a built `bib`: on small files in each of its commands the first growth is refused, then the second, and so on, until a run
meets no refusal: once that growth only, and once it and all after it. It must print its whole answer, or `error: out of memory`
with status 3. The refusals are made by tests/refused/refuse.c, which is compiled here and loaded before the C library.

One line for each call: how many growths it meets with its example, how many of them the call reported as out of memory, and whether
all answers were right. The status is 1 if one was wrong, or if no growth of a call was refused.
"""
import os
import pathlib
import re
import shutil
import subprocess
import sys
import tempfile

TOP = pathlib.Path(__file__).resolve().parent.parent
SOURCES = TOP / "tests" / "refused"
CALLS = ("parse parse-names insert insert-taking insert-present alias set set-title set-date biblatex bibtex entry-biblatex "
         "entry-bibtex verify clone").split()
REFUSED = 300
INHERITING = b"@mvbook{p, title={Works}} @book{c, title={One}, crossref={p}}"
JOURNALS = b"@article{k, journal={A}, journaltitle={B}}"
WRITTEN = b"@article{k,\njournaltitle = {A},\njournaltitle = {B},\n}\n"
PROGRAM_ROWS = [
    ("keys", INHERITING, 0, b"p\nc\n"),
    ("biblatex", JOURNALS, 0, WRITTEN),
    ("biblatex", INHERITING, 0,
     b"@mvbook{p,\ntitle = {Works},\n}\n\n@book{c,\ncrossref = {p},\nmaintitle = {Works},\ntitle = {One},\n}\n"),
    ("bibtex", b"@thesis{t, institution={TU}, date={2019-10}}", 0,
     b"@phdthesis{t,\nyear = {2019},\nmonth = {10},\nschool = {TU},\n}\n"),
    ("settled", b"@misc{a, title={Foo}}", 0, b"settled\n"),
    ("settled", b"@misc{a, title={a{$}$b}}", 4, b"not settled\n"),
    ("biblatex", b"@misc{a, title={x}}@misc{a,}", 1, b'error: duplicate key "a": 19-27\n'),
    ("check", b"@mvbook{m, title={x}, volume={y}}", 4,
     b"m: missing author\nm: missing year\nm: superfluous volume\nm: malformed volume: invalid number\n"),
]
NO_MEMORY = (3, b"error: out of memory\n")
LIMIT = 100_000


def tell(name, growths, refused, wrong):
    """Prints the line of a call, and returns whether it failed."""
    print(f"{name:<28} {growths:>5} growths, {refused:>4} refused in the call, {'all right' if not wrong else 'WRONG'}")
    for it in wrong[:5]:
        print(f"    {it}")
    return bool(wrong)


# the calls of the library


def listed():
    """The crates of crates.txt that are libraries for `biblatex`, each with its line."""
    lines = {line.partition(":")[0]: line for line in (TOP / "crates.txt").read_text().splitlines() if re.match(r"bib\w+:", line)}
    needed, left = {}, ["biblatex"]
    while left:
        name = left.pop()
        if name in lines and name not in needed:
            needed[name] = lines[name]
            left += lines[name].partition(":")[2].split()
    return needed


def fill(room):
    """Copies the sources of the library and of the program that makes the calls to a repository of its own."""
    lines = listed()
    for name in lines:
        shutil.copytree(TOP / "crates" / name / "src", room / "crates" / name / "src")
    source = room / "crates" / "refused" / "src"
    source.mkdir(parents=True)
    for file in SOURCES.glob("*.rs"):
        shutil.copy(file, source / f"{file.stem}.rt")
    shutil.copy(TOP / "HANDLES", room)
    (room / "crates.txt").write_text("\n".join([*lines.values(), "refused: biblatex"]) + "\n")


def built(program):
    """Builds the program that makes the calls, and has it copied to this place; returns whether it was."""
    with tempfile.TemporaryDirectory() as folder:
        room = pathlib.Path(folder)
        fill(room)
        words = ["rt", "try", "--steps", "1", "--fail-alloc", str(REFUSED), "--", "copy", program]
        done = subprocess.run(words, cwd=room / "crates" / "refused", stdin=subprocess.DEVNULL, stderr=subprocess.PIPE, text=True)
    if done.returncode:
        print("\n".join(done.stderr.splitlines()[-20:]))
    return done.returncode == 0 and os.access(program, os.X_OK)


def verdicts(program, call):
    """What the program prints of a call, from the first growth that is refused in the call or its example to the first run without one."""
    for count in range(REFUSED, -1, -1):
        done = subprocess.run([program, call, str(count)], stdin=subprocess.DEVNULL, capture_output=True, text=True, timeout=60)
        verdict = done.stdout.strip() if done.returncode == 0 else f"status {done.returncode}, {done.stderr[:200]}"
        if verdict != "before":
            yield verdict
        if verdict == "right unmet":
            return
    yield "every run met a refusal"


def sweep_call(program, call):
    """The number of growths that a call meets with its example, how many of them the call reported, and the wrong answers."""
    *met, last = verdicts(program, call)
    wrong = [f"growth {at}: {it}" for at, it in enumerate(met, 1) if it not in ("right met", "refused met", "unready met")]
    refused = met.count("refused met")
    if last != "right unmet":
        wrong.append(last)
    if not met or not refused and call != "insert-present":
        wrong.append("no growth of the call was refused")
    return len(met), refused, wrong


# the program


def compiled(folder):
    library = os.path.join(folder, "refuse.so")
    subprocess.run([os.environ.get("CC", "gcc"), "-O1", "-shared", "-fPIC", "-o", library, SOURCES / "refuse.c"], check=True)
    return library


def run(library, words, text, number, goes_on):
    """The status and the output of a run in which this growth is refused, and whether it was met."""
    reported, reporting = os.pipe()
    environment = {"LD_PRELOAD": library, "REFUSE": str(number), "REFUSE_ON": "1" if goes_on else "0"}

    def prepare():
        os.dup2(reporting, 3)

    try:
        done = subprocess.run(words, input=text, stdout=subprocess.PIPE, env=environment, preexec_fn=prepare, pass_fds=(3,), timeout=60)
    finally:
        os.close(reporting)
    met = os.read(reported, 1) == b"!"
    os.close(reported)
    return done.returncode, done.stdout, met


def sweep(library, words, text, want):
    """The most growths that a run meets, how many runs ended for want of memory, and the wrong answers."""
    most, refused, wrong = 0, 0, []
    for goes_on in (False, True):
        for number in range(1, LIMIT):
            status, output, met = run(library, words, text, number, goes_on)
            is_refused = met and (status, output) == NO_MEMORY
            if not is_refused and (status, output) != want:
                wrong.append(f"growth {number}{' and on' if goes_on else ''}: status {status}, {output[:60]!r}")
            refused += is_refused and not goes_on
            most = max(most, number - 1)
            if not met:
                break
    return most, refused, wrong + ["no growth was refused"] * (not refused)


def main(words):
    if len(words) > 1:
        print(__doc__, file=sys.stderr)
        return 2
    failed = 0
    with tempfile.TemporaryDirectory() as folder:
        calls = os.path.join(folder, "calls")
        if not built(calls):
            print("tests/refused.py: the program that makes the calls wasn't built")
            return 1
        for call in CALLS:
            failed += tell(call, *sweep_call(calls, call))
        library = compiled(folder) if words else None
        for word, text, status, output in PROGRAM_ROWS if words else []:
            program = os.path.abspath(words[0])
            failed += tell(f"bib {word} on {len(text)} bytes", *sweep(library, [program, word], text, (status, output)))
    print(f"refused: {failed} calls failed" if failed else "refused: all answers were right")
    return 1 if failed else 0


if __name__ == "__main__":
    sys.exit(main(sys.argv[1:]))
