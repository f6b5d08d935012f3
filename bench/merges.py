#!/usr/bin/env python3
"""Merges random edits with a built `bibkit`: bench/merges.py PROGRAM [--cases N] [--seed N]

A case has a generated bibliography. Each of two sides sets, adds and removes fields, changes types of entries, and adds and removes entries.
One side may also write the file in another layout, and rename an entry that it doesn't edit. No side edits a field or a type that the other
side edits, or an entry that it removes. So `PROGRAM merge` must find no conflict, and the merged file must have the entries, fields and
comments of both lists of edits, in any order. A second run exchanges the sides. The status is 1 if a case fails.
"""
import argparse
import pathlib
import random
import re
import subprocess
import sys
import tempfile

NAMES = "author title journal year volume number pages publisher address edition note month isbn doi url keywords".split()
WORDS = "of theory systems folding rivers {Bayesian} methods time and \\'etudes the assumptions 1984 J\\\"urgen".split()


def value(chance):
    """A value of a field."""
    if chance.random() < 0.2:
        return str(chance.randrange(1800, 2030))
    return "{" + " ".join(chance.choice(WORDS) for _ in range(chance.randrange(1, 7))) + "}"


def generated(chance, number):
    """An entry: its type, its key, and its fields."""
    names = chance.sample(NAMES, chance.randrange(2, 8))
    return [chance.choice(["article", "book", "misc"]), f"key{number}", [[name, value(chance)] for name in names]]


def written(unit, layout):
    """The text of an entry or a comment. A layout is the indentation, the text around the equals sign, and whether a last comma is written."""
    if isinstance(unit, str):
        return unit
    indent, sign, has_last = layout
    kind, key, fields = unit
    lines = [f"{indent}{name}{sign}{text}" for name, text in fields]
    return f"@{kind}{{{key},\n" + ",\n".join(lines) + ("," if has_last and lines else "") + "\n}"


def text_of(units, layout):
    return "\n\n".join(written(unit, layout) for unit in units) + "\n"


def copy(units):
    return [unit if isinstance(unit, str) else [unit[0], unit[1], [list(it) for it in unit[2]]] for unit in units]


def edit(chance, units, free, number):
    """Makes one random edit of `units` in place. It edits only fields, types and entries in `free`, and removes them from there."""
    kind = chance.choice(["set", "set", "add-field", "unset", "add", "remove", "type"])
    entries = [unit for unit in units if not isinstance(unit, str)]
    if kind == "add":
        units.insert(chance.randrange(len(units) + 1), generated(chance, number))
        return
    if not entries:
        return
    entry = chance.choice(entries)
    key, fields = entry[1], entry[2]
    if kind == "remove" and all((key, it) in free for it in ["", "type", *NAMES]) and len(entries) > 1:
        free -= {(key, it) for it in ["", "type", *NAMES]}
        units.remove(entry)
        return
    if kind == "type" and (key, "type") in free:
        free -= {(key, "type"), (key, "")}
        entry[0] = "report"
        return
    name = chance.choice(NAMES)
    if (key, name) not in free:
        return
    there = next((it for it in fields if it[0] == name), None)
    free -= {(key, name), (key, "")}
    if kind == "set" and there:
        there[1] = value(chance)
    elif kind == "unset" and there and len(fields) > 2:
        fields.remove(there)
    elif kind == "add-field" and not there:
        fields.insert(chance.randrange(len(fields) + 1), [name, value(chance)])


def rename(chance, base, side, other, key):
    """Gives an entry that `side` doesn't edit and `other` doesn't remove this key in `side`, if there is one. Returns its old key."""
    entries = [unit for unit in side if not isinstance(unit, str) and unit in base and any(unit[1] == it[1] for it in other)]
    if not entries:
        return None
    entry = chance.choice(entries)
    old, entry[1] = entry[1], key
    return old


def with_keys(units, keys):
    """The units with new keys for old ones."""
    return [unit if isinstance(unit, str) else [unit[0], keys.get(unit[1], unit[1]), unit[2]] for unit in units]


def replayed(base, ours, theirs):
    """The parsed units with the edits of both sides: each part is that of the side that changed it."""
    def parts(units):
        return {unit if isinstance(unit, str) else unit[1]: unit for unit in units}

    old, one, other = parts(base), parts(ours), parts(theirs)
    result = {}
    for key in {*old, *one, *other}:
        b, o, t = old.get(key), one.get(key), other.get(key)
        if o == b or t == b:
            found = t if o == b else o
        else:
            fields = {}
            fb, fo, ft = (dict(map(tuple, it[2])) for it in (b, o, t))
            for name in {*fb, *fo, *ft}:
                text = ft.get(name) if fo.get(name) == fb.get(name) else fo.get(name)
                if text is not None:
                    fields[name] = text
            found = [t[0] if o[0] == b[0] else o[0], key, list(fields.items())]
        if found is not None:
            result[key] = found if isinstance(found, str) else (found[0], dict(map(tuple, found[2])))
    return result


ENTRY = re.compile(r"@(\w+)\{(\w+),\n(.*?)\n\}", re.S)
FIELD = re.compile(r"\s*(\w+)\s*=\s*(\{.*\}|\d+),?$")


def parsed(text):
    """The entries and comments of a text in one of the layouts, or None if it isn't such a text."""
    result = {}
    for unit in filter(None, re.split(r"\n\s*\n", text.strip("\n"))):
        found = ENTRY.fullmatch(unit)
        if not found:
            result[unit] = unit
            continue
        fields = {}
        for line in found[3].split("\n"):
            one = FIELD.match(line)
            if not one or one[1] in fields:
                return None
            fields[one[1]] = one[2]
        if found[2] in result:
            return None
        result[found[2]] = (found[1], fields)
    return result


def run(program, folder, texts):
    """Merges the texts of the base, ours and theirs. Returns the status, the merged text and the messages."""
    names = []
    for name, text in zip(("base", "ours", "theirs"), texts):
        path = pathlib.Path(folder) / f"{name}.bib"
        path.write_text(text)
        names.append(str(path))
    found = subprocess.run([program, "merge", *names], stdout=subprocess.PIPE, stderr=subprocess.PIPE, text=True)
    return found.returncode, found.stdout, found.stderr


LAYOUTS = [("  ", " = ", True), ("\t", "=", False), ("    ", " = ", False), ("", " = ", True)]


def case(chance, program, folder, number):
    """Runs one case in both orders of the sides. Returns a message with the texts if it fails, otherwise None."""
    base = [generated(chance, index) if chance.random() < 0.9 else f"Comment number {index}" for index in range(chance.randrange(1, 7))]
    ours, theirs = copy(base), copy(base)
    free = {(unit[1], it) for unit in base if not isinstance(unit, str) for it in ["", "type", *NAMES]}
    for index in range(chance.randrange(0, 5)):
        edit(chance, ours, free, 1000 + 10 * index)
    for index in range(chance.randrange(0, 5)):
        edit(chance, theirs, free, 2000 + 10 * index)
    keys = {}
    if chance.random() < 0.3:
        old = rename(chance, base, ours, theirs, "renamed")
        keys = {old: "renamed"} if old else {}
    layout = chance.choice(LAYOUTS)
    layouts = [layout, chance.choice(LAYOUTS) if chance.random() < 0.2 else layout, layout]
    texts = [text_of(units, it) for units, it in zip((base, ours, theirs), layouts)]
    for order in ([0, 1, 2], [0, 2, 1]):
        status, merged, said = run(program, folder, [texts[it] for it in order])
        expected = replayed(*(with_keys(units, keys) for units in (base, ours, theirs)))
        if status != 0 or parsed(merged) != expected:
            parts = zip(("base", "ours", "theirs", "merged"), (*(texts[it] for it in order), merged))
            return f"case {number}: status {status}\n{said}" + "".join(f"--- {name}\n{text}" for name, text in parts)
    return None


def main():
    parser = argparse.ArgumentParser(description=__doc__.splitlines()[0])
    parser.add_argument("program")
    parser.add_argument("--cases", type=int, default=1000)
    parser.add_argument("--seed", type=int, default=1)
    words = parser.parse_args()
    failed = 0
    with tempfile.TemporaryDirectory() as folder:
        for number in range(words.cases):
            wrong = case(random.Random(f"{words.seed} {number}"), words.program, folder, number)
            if wrong:
                failed += 1
                if failed <= 3:
                    print(wrong)
    print(f"{words.cases - failed} passed, {failed} failed")
    return 1 if failed else 0


if __name__ == "__main__":
    sys.exit(main())
