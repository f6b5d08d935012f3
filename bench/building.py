"""Proves and builds a program over the library that a script of bench/ measures with."""
import pathlib
import shutil
import subprocess
import sys
import tempfile

TOP = pathlib.Path(__file__).resolve().parent.parent


def build(name, program, words, text=""):
    """Builds bench/NAME/*.rt.txt as `program`. It is run once, with these words and this text, and has to succeed.

    The sources end in `.txt`, since the gate takes `.rt` files in crates only. The crate exists as long as it is built.
    """
    with tempfile.TemporaryDirectory(dir=TOP / "bench", prefix=f"{name}-") as crate:
        work = pathlib.Path(crate)
        (work / "src").mkdir()
        for file in (TOP / "bench" / name).glob("*.rt.txt"):
            shutil.copy(file, work / "src" / file.stem)
        (work / "BUILD.bazel").write_text(f'rattle_crate(name = "{name}", deps = ["//crates/biblatex"])\n')
        done = subprocess.run(["rt", "run", "--", *words], cwd=work, input=text, stdout=subprocess.PIPE,
                              stderr=subprocess.STDOUT, text=True)
        if done.returncode:
            sys.exit("\n".join(done.stdout.splitlines()[-20:]) + f"\n{name}: the program was not built")
        shutil.copy(work / "out" / name, program)
    return program
