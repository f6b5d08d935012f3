#!/usr/bin/env python3
"""Builds the library for C, over libraries that `rt ci` has proved: c/build.py [FOLDER]

FOLDER is a copy of this repository in which `rt ci` ran, or this one. `biblatex_c` itself is checked once more. Writes
FOLDER/crates/biblatex_c/out/libbiblatex.a: the library with the part of the kit that it needs, so that it is linked alone.
`rt lib` builds the same over libraries that it proves anew.
"""
import os
import pathlib
import shutil
import subprocess
import sys
import tempfile

NAME = "biblatex_c"


def kit():
    """The kit's folder, and its module that knows what `rattle` is called with."""
    command = shutil.which("rt")
    if command is None:
        sys.exit("c/build.py: there is no kit on this machine")
    folder = pathlib.Path(command).resolve().parent.parent
    sys.dont_write_bytecode = True
    sys.path.insert(0, str(folder / "bin"))
    import rtlib

    return folder, rtlib


def compiled(top, rtlib):
    """Compiles the crate over the libraries that stand in their folders, and returns the archive."""
    crate = next(it for it in rtlib.crates_below(str(top)) if it.name == NAME)
    missing = [it.name for it in crate.below() if not os.path.isdir(it.rlib)]
    if missing:
        sys.exit(f"c/build.py: {missing[0]} is not built: `rt ci`, or scripts/prove.py {NAME}, proves and builds it")
    os.makedirs(f"{crate.folder}/out", exist_ok=True)
    with tempfile.TemporaryFile("w+") as said:
        crate.out = said
        if crate.compile([], f"out/lib{NAME}.a"):
            said.seek(0)
            sys.exit("c/build.py: not built:\n" + said.read()[-4000:])
    return pathlib.Path(crate.folder) / "out" / f"lib{NAME}.a"


def merged(archive, more):
    """Puts the objects of another archive into this one, under the library's own name."""
    whole = archive.with_name("libbiblatex.a")
    whole.unlink(missing_ok=True)
    script = f"create {whole}\naddlib {archive}\naddlib {more}\nsave\nend\n"
    subprocess.run(["ar", "-M"], input=script, text=True, check=True)
    return whole


def main(words):
    top = pathlib.Path(words[0] if words else pathlib.Path(__file__).parent.parent).resolve()
    folder, rtlib = kit()
    os.chdir(top)
    print(merged(compiled(top, rtlib), folder / "c" / "liblibc_c.a").relative_to(top))


if __name__ == "__main__":
    main(sys.argv[1:])
