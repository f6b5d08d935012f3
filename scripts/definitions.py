#!/usr/bin/env python3
"""Prints the definitions of specs/: definitions.py [CRATE ..], or definitions.py --below WORD ..

Without --below it prints each definition with its comment, by crate and file, of these crates or of all.
With --below it prints the text of each of these words and of every definition of this repository below it, each once, the words of a
definition after it. So `definitions.py --below IsBibliographyOf` prints what the contract of `Bibliography::parse` says of its
result. The last lines name the words of the kit and the types of the code that these texts use, and count the definitions, their
lines, files and crates.
"""
import re
import sys

import check

CRATES = check.CRATES
IMPORT = re.compile(r"(?m)^(?:pub )?use Rattle\.(\w+)\.specs\.([\w.]+?)(?:\.\{([^}]*)\}| as (\w+))?$")
WORD = re.compile(r"[A-Za-z_][\w'-]*(?:\.[A-Za-z_][\w'-]*)?")


def print_all(crates):
    for file in sorted(CRATES.glob("*/specs/*.antt")):
        words = list(check.definitions(file))
        if words and (not crates or file.parent.parent.name in crates):
            print(f"\n{file.relative_to(CRATES)}")
            for word, said in words:
                print(f"  {word}: {said}" if said else f"  {word}")


def texts(file):
    """The words that a file defines, each with the lines of its comment and its definition."""
    lines = file.read_text().splitlines()
    starts = [at for at, line in enumerate(lines) if check.DEFINITION.match(line)]
    for start, end in zip(starts, [*starts[1:], len(lines)]):
        while end > start + 1 and (not lines[end - 1].strip() or lines[end - 1].startswith("--")):
            end -= 1
        comment = start
        while comment and lines[comment - 1].startswith("-- "):
            comment -= 1
        yield check.DEFINITION.match(lines[start])[1], lines[comment:start], lines[start:end]


def imports(file):
    """What the names that a file imports mean: the file and word of each, or the file and no word for a module."""
    for crate, module, words, alias in IMPORT.findall(file.read_text()):
        path = CRATES / crate / "specs" / (module.replace(".", "/") + ".antt")
        for word in filter(None, (it.strip() for it in words.split(","))):
            name, _, own = word.partition(" as ")
            yield own or name, (path, name)
        if alias:
            yield alias, (path, None)


class Definitions:
    """All definitions by their file and word, and what the words in a file mean."""

    def __init__(self):
        files = [*CRATES.glob("*/specs/**/*.antt")]
        self.texts = {(file, word): (said, text) for file in files for word, said, text in texts(file)}
        self.imports = {file: dict(imports(file)) for file in files}

    def meant(self, file, name):
        """The definition that a name in a file means, if it is one of this repository."""
        first, _, second = name.partition(".")
        found = (file, first) if (file, first) in self.texts else self.imports[file].get(first)
        if found and found[1] is None:
            found = (found[0], second)
        return found if found in self.texts else None

    def names(self, one):
        """The names in the text of a definition, in its order."""
        return WORD.findall("\n".join(re.sub(r'"[^"]*"|--.*', "", line) for line in self.texts[one][1]))

    def below(self, one):
        """The definitions that the text of one cites, in its order."""
        return [it for it in (self.meant(one[0], name) for name in self.names(one)) if it]

    def outside(self, one):
        """The imported names in the text of a definition that no file of specs/ defines, each with whether it is a type of the code."""
        for name in self.names(one):
            path, word = self.imports[one[0]].get(name.partition(".")[0], (None, None))
            is_type = path is not None and "declared" in path.parts
            is_of_kit = path is not None and not (CRATES / path.relative_to(CRATES).parts[0]).is_dir()
            if is_of_kit or is_type and word:
                yield word or name, is_type


def print_below(words):
    all_of = Definitions()
    missing = [it for it in words if not any(it == word for _, word in all_of.texts)]
    if missing or not words:
        return f"definitions.py: no definition is called {missing[0]}" if missing else __doc__
    left, order = [one for word in reversed(words) for one in all_of.texts if one[1] == word], []
    while left:
        one = left.pop()
        if one not in order:
            order.append(one)
            left += reversed(all_of.below(one))
    for file, word in order:
        said, text = all_of.texts[file, word]
        print("\n".join([f"-- {file.relative_to(CRATES)}", *said, *text]), end="\n\n")
    outside = {it for one in order for it in all_of.outside(one)}
    print("words of the kit:", *sorted(word for word, is_type in outside if not is_type))
    print("types of the code:", *sorted(word for word, is_type in outside if is_type))
    lines = sum(len(all_of.texts[it][1]) for it in order)
    files = {file for file, _ in order}
    crates = {file.relative_to(CRATES).parts[0] for file in files}
    print(f"{len(order)} definitions of {lines} lines, in {len(files)} files of {len(crates)} crates")
    return 0


if __name__ == "__main__":
    if sys.argv[1:2] == ["--below"]:
        sys.exit(print_below(sys.argv[2:]))
    sys.exit(print_all(sys.argv[1:]))
