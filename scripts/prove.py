#!/usr/bin/env python3
"""Proves the program and builds it: prove.py [CRATE ..]

Runs `rt ci` over the crates that are named, or over `bib`, and those below them, side by side, on a copy without the wrong bodies, which
the gate tries. Where the kit keeps what it proved, a run that was stopped goes on where it was, and the gate takes it from there.
The program then stands in crates/bib/out/bib, and the library for C, where `biblatex_c` is named, in crates/biblatex_c/out/libbiblatex.a.
RT_JOBS=N uses N processors.
"""
import os
import pathlib
import re
import shutil
import signal
import subprocess
import sys
import tempfile
import time

TOP = pathlib.Path(__file__).resolve().parent.parent
DONE = re.compile(r"rt: (\w+) (proved|is kept)\b")


def listed():
    """The crates of crates.txt, each with those of them that it names."""
    rows = {}
    for line in (TOP / "crates.txt").read_text().splitlines():
        name, colon, below = line.partition("#")[0].partition(":")
        if colon:
            rows[name.split()[0]] = below.split()
    return {name: [it for it in below if it in rows] for name, below in rows.items()}


def with_below(names, rows):
    """These crates and all that they stand on."""
    found, left = set(), list(names)
    while left:
        name = left.pop()
        if name not in found:
            found.add(name)
            left += rows[name]
    return found


def copy(needed, room):
    """Copies what is proved of the crates to a repository of its own."""
    (room / ".git").mkdir()
    for name in needed:
        skipped = shutil.ignore_patterns("out", "must-fail", "wrong")
        shutil.copytree(TOP / "crates" / name, room / "crates" / name, ignore=skipped)
    lines = (TOP / "crates.txt").read_text().splitlines()
    kept = [it for it in lines if it.partition(":")[0].split()[:1] in [[name] for name in needed]]
    (room / "crates.txt").write_text("\n".join(kept) + "\n")
    shutil.copy(TOP / "HANDLES", room)


def say(text, is_last=False):
    """Says how far it is: in one line that is written anew on a terminal, else at the end alone."""
    if sys.stderr.isatty():
        sys.stderr.write(f"\r\x1b[K{text}" + "\n" * is_last)
        sys.stderr.flush()
    elif is_last:
        print(text, file=sys.stderr)


def follow(run, count):
    """Says which crates are proved as they are, and returns what was said of one that isn't, or of the run."""
    start, done, section, last = time.time(), set(), [], "none yet"
    for line in run.stdout:
        found = DONE.match(line)
        if line.startswith("== "):
            section = []
        section.append(line)
        if found:
            done.add(found[1])
            last = found[1]
        elif "NOT PROVED" in line:
            break
        minutes = (time.time() - start) / 60
        say(f"proving: {len(done)} of {count} crates after {minutes:.1f} minutes, the last {last}")
    rest = run.stdout.read()
    if run.wait() == 0:
        say(f"proved {count} crates in {(time.time() - start) / 60:.1f} minutes", True)
        return None
    said = [line for line in section if not line.startswith("statements ") and not line.rstrip().endswith(": proved")]
    return "".join(said[:60]) + rest[-2000:]


def take(room, name, file):
    """Takes over a file that was built for a crate."""
    out = TOP / "crates" / name / "out"
    out.mkdir(exist_ok=True)
    shutil.copy2(room / "crates" / name / "out" / file, out / file)
    os.utime(out / file)


def prove(wanted, rows):
    needed = with_below(wanted, rows)
    with tempfile.TemporaryDirectory() as folder:
        room = pathlib.Path(folder)
        copy(needed, room)
        how = {"stdout": subprocess.PIPE, "stderr": subprocess.STDOUT, "text": True, "errors": "replace"}
        run = subprocess.Popen(["rt", "ci"], cwd=room, start_new_session=True, **how)
        try:
            said = follow(run, len(needed))
        finally:
            if run.poll() is None:
                os.killpg(run.pid, signal.SIGTERM)
                run.wait()
        if said is not None:
            say("not proved:", True)
            print(said, file=sys.stderr)
            return 1
        if "biblatex_c" in wanted:
            subprocess.run([sys.executable, TOP / "c" / "build.py", room], check=True, stdout=subprocess.DEVNULL)
            take(room, "biblatex_c", "libbiblatex.a")
        for program in [it for it in needed if (room / "crates" / it / "out" / it).is_file()]:
            take(room, program, program)
    return 0


def main(words):
    rows = listed()
    unknown = [it for it in words if it not in rows]
    if unknown:
        print(f"prove.py: crates.txt lists no {unknown[0]}", file=sys.stderr)
        return 2
    return prove(words or ["bib"], rows)


def interrupt(*_):
    raise KeyboardInterrupt


if __name__ == "__main__":
    signal.signal(signal.SIGTERM, interrupt)
    try:
        sys.exit(main(sys.argv[1:]))
    except KeyboardInterrupt:
        sys.exit(130)
