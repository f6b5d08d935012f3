#!/usr/bin/env python3
"""Checks in a few seconds what the prover doesn't read: check.py, or check.py --crates

With --crates it prints the table of crates for docs/CONTRIBUTING.md.

- Each wrong body, crates/NAME/must-fail/*.edit and crates/NAME/wrong/*.edit, fits its file: each of its `old:` texts
  stands there exactly once. Its name is words in lowercase with hyphens between them, and no other has it.
- crates/NAME/wrong/INDEX.md names each wrong body of its crate, in the section of its folder, with the promise that it
  breaks and the clause that refuses it, and none that isn't there.
- Each wrong body that the promises name is tried by the gate, or shown by the tests that are named with it (PROMISED).
- Each file of specs/ says in its first line whether it is meaning or machinery.
- No comment has a name with an underscore outside of backticks: a name that a script put there reads as prose.
- The public surface of `biblatex` is that of tests/surface.txt (tests/surface.py).
- Each word that a public contract cites has a comment in specs/. No word is defined in two files of specs/, and no
  definition or clause compares with the code of a character that has a name, or prepends it (CODE).
- No line of a definition or a proof is over 140 characters, except imports and literal texts.
- Each public call of `biblatex` that may be refused memory is named in a test, which calls it where memory is there.
- No function builds an error that says that memory was refused unless it was given one (out_of_memory.py).
- The list of misspellings.rt has the known names of fields that others resemble (similar_names.py).
- The rows of each layer, tests/rows/NAME, stand in NAME.stdout in the same order, each with an answer.
- README.md has at most 80 lines, and the first example of docs/LIBRARY.md is the code of
  tests/src/bibliography_calls/first_example.rs.
- crates.txt is in the order of the layers, and names for a crate only what its files mention.
- docs/CONTRIBUTING.md has the table of crates that --crates prints.
- docs/THEOREMS.md says of each word in which file of specs/ it is defined, and names only calls that the sources have.
- docs/CSL.md has the tables of entry types, fields, CSL types, variables, and RIS types and tags of the definitions (tables.py).
- README.md, docs/ and the indexes name no file and no crate that isn't there.
"""
import os
import pathlib
import re
import sys

import out_of_memory
import similar_names
import tables

TOP = pathlib.Path(__file__).resolve().parent.parent
sys.path.insert(0, str(TOP / "tests"))
import surface

CRATES = TOP / "crates"
FOLDERS = ("must-fail", "wrong")
DEFINITION = re.compile(r"(?:(?:pub|abbrev|unfoldable|opaque|data|record) )+([A-Za-z_][\w'-]*)(?=[ :(]|$)")
NAMED = re.compile(r"(?m)^(\w+) = (\d+)$")
CLAUSE = re.compile(r" *(?:ensures|requires)\*?(?: \w+)? \{")
CODE = re.compile(
    r"(?:== |≡ |CharAt [\w'.]+ |cut_at [\w'.]+ |replicate [\w'.]+ |has_byte |holds |IsWithout )(\d+)\b|(?<![\w'.])(\d+)(?= ∷)"
)
# The laws of bib_typed that state which values of a type are kept. Each is refused if the class of its type is empty.
KEPT_LAWS = (
    "pub fn texts_are_kept(", "pub fn numbers_are_kept(", "ensures language { ⟦<Language as Type>⟧.kept",
    "ensures pagination { ⟦<Pagination as Type>⟧.kept", "ensures gender { ⟦<Gender as Type>⟧.kept", "⟦<EditorType as Type>⟧.kept",
    "pub fn ranges_are_kept(", "pub fn lists_of_ranges_are_kept(", "pub fn lists_of_texts_are_kept(",
    "pub fn lists_of_languages_are_kept(", "pub fn lists_of_people_are_kept(", "pub fn dates_are_kept(",
    "pub fn permissive_values_are_kept<",
)
# Wrong bodies that the promises of the library name, each with the edits in must-fail/ that stand for it, or the file and the
# text of a test that shows it.
PROMISED = {
    "references are copied as they are written, and not as they are resolved": ["bib_inheritance/copies-references-as-written"],
    "a cycle is reported at any second meeting of an entry": ["bib_inheritance/entry-met-again-is-a-cycle"],
    "the first dated reference wins": ["bib_inheritance/first-dated-reference-wins"],
    "the date of a reference overwrites an own date": ["bib_inheritance/date-of-a-reference-overwrites-an-own-one"],
    "an entry that cannot be parsed is skipped": ["bib_syntax/unreadable-entry-skipped"],
    "an entry needs no comma after its key": ["bib_syntax/entry-without-its-comma"],
    "an undefined name says nothing": ["bib_abbreviations/undefined-name-reads-as-nothing"],
    "all pieces of a value are read as one text": ["bib_abbreviations/pieces-read-as-one-text"],
    "a later entry with a claimed key replaces the earlier": ["biblatex/later-entry-replaces-the-one-with-its-key"],
    "a name that was taken over finds its old entry, or there are no names":
        ["biblatex/name-taken-over-finds-the-first-entry", "biblatex/names-left-empty"],
    "verbatim chunks are written without braces": ["bib_chunks/no-braces-round-verbatim"],
    "an ampersand or a backslash is not escaped": ["bib_chunks/no-escape-of-ampersand", "bib_chunks/no-escape-of-backslash"],
    "`is_settled` always says yes, or always no":
        ["bib_chunks/is-settled-always", "bib_chunks/is-settled-never", "biblatex/bibliography-is-settled-always",
         "biblatex/bibliography-is-settled-never"],
    "`remove` leaves later indices as they are": ["biblatex/remove-leaves-later-indices"],
    "`insert` appends on a present name": ["biblatex/insert-appends-on-a-present-name"],
    "a list of people is cut at `and` inside a word": ["bib_chunks/and-cut-inside-a-word"],
    "a shared parent is resolved anew on each use": ["bib_inheritance/shared-parent-resolved-anew"],
    "a raw piece is copied out trimmed": ["bib_syntax/raw-piece-trimmed"],
    "a typed setter keeps the old value": ["bib_typed/setter-keeps-the-old-value"],
    "a call always answers out of memory": ["tests/src/calls/values.rs: fn types_and_enumerations", "tests/check_test.py: (check.check_calls, "],
    "a class of kept values is empty":
        ["bib_typed/every-kept-class-is-empty", *(f"crates/bib_typed/src/laws.rt: {law}" for law in KEPT_LAWS)],
    "the topological order is the order of the file": ["bib_inheritance/order-is-that-of-the-file"],
    "an own month alone stops the inheritance of a date": ["bib_inheritance/own-month-alone-stops-inheritance"],
    "a child with an own year is refused for its parent's date": ["bib_inheritance/own-year-refused-for-the-date-of-the-parent"],
    "a circumflex is written as a command in math too": ["bib_chunks/circumflex-command-in-math"],
    "`is_settled` accepts any math without a dollar sign": ["bib_chunks/settled-takes-any-math-without-dollar"],
    "every syntax error is an early end at 0..0": ["tests/rows/syntax.stdout: keys|@article{a} => expected comma: 10-10"],
    "empty chunks stand between all others": ["bib_chunks/empty-chunk-between-neighbours"],
    "empty chunks are dropped": ["tests/rows/contents.stdout: title|a{}b => N<a>V<>N<b>"],
}
errors = []


def error(path, why):
    errors.append(f"{path.relative_to(TOP)}: {why}")


def check_fit(edit):
    """Each old text of the edit stands exactly once in its file, as the texts before it left that."""
    crate, file, old, texts, pairs = edit.parent.parent, None, None, {}, 0
    for line in edit.read_text().splitlines():
        word, _, text = line.partition(": ")
        if word == "file":
            file = crate / text
        elif word == "old":
            old = text
        elif word.rstrip(":") == "new" and old is not None and file is not None:
            if file not in texts:
                texts[file] = file.read_text() if file.is_file() else ""
            found = texts[file].count(old)
            if found != 1:
                error(edit, f"its text stands {found} times in {file.relative_to(crate)}, and not once: {old}")
            texts[file] = texts[file].replace(old, text)
            old, pairs = None, pairs + 1
    if not pairs:
        error(edit, "it changes nothing")


def edits():
    """The names of the wrong bodies by folder."""
    names = {folder: set() for folder in FOLDERS}
    for folder in FOLDERS:
        for edit in sorted(CRATES.glob(f"*/{folder}/*.edit")):
            check_fit(edit)
            if not re.fullmatch(r"[a-z0-9]+(-[a-z0-9]+)*", edit.stem):
                error(edit, "its name is not words in lowercase with hyphens between them")
            if any(edit.stem in it for it in names.values()):
                error(edit, "another wrong body has this name")
            names[folder].add(edit.stem)
    return names


def check_indexes():
    """A line for each wrong body of the crate, in the section whose heading names its folder."""
    for crate in sorted({edit.parent.parent for folder in FOLDERS for edit in CRATES.glob(f"*/{folder}/*.edit")}):
        index = crate / "wrong" / "INDEX.md"
        named, folder = {it: [] for it in FOLDERS}, None
        for line in (index.read_text() if index.is_file() else "").splitlines():
            if line.startswith("## "):
                folder = next((it for it in FOLDERS if f"{it}/" in line), None)
            found = re.match(r"- `([^`]+)`", line)
            if found and folder:
                named[folder].append(found[1])
                if not re.fullmatch(r"- `[^`]+`: [^;]+; .+", line):
                    error(index, f"of {found[1]} it doesn't say what it breaks; and which clause refuses it")
        for folder in FOLDERS:
            names = sorted(edit.stem for edit in crate.glob(f"{folder}/*.edit"))
            for name in names:
                if name not in named[folder]:
                    error(index, f"it doesn't name {folder}/{name}")
            for name in named[folder]:
                if name not in names or named[folder].count(name) > 1:
                    error(index, f"it names {folder}/{name}, which isn't there once")


def check_promised():
    """Each named wrong body has its edits in must-fail/, or its tests."""
    for body, shown in PROMISED.items():
        for it in shown:
            file, is_test, text = it.partition(": ")
            crate, _, name = file.partition("/")
            if is_test:
                if not (TOP / file).is_file() or text not in (TOP / file).read_text():
                    error(TOP / file, f"it lacks {text!r}, which shows that it is wrong if {body}")
            elif not (CRATES / crate / "must-fail" / f"{name}.edit").is_file():
                error(CRATES / crate / "must-fail", f"it lacks {name}.edit, which shows that it is wrong if {body}")


def check_comments():
    """A name with an underscore stands in backticks in a comment."""
    for file in [*sorted(CRATES.glob("*/**/*.rt")), *sorted(CRATES.glob("*/**/*.antt"))]:
        for number, line in enumerate(file.read_text().splitlines(), 1):
            comment = re.match(r"\s*(?://[/!]?|--) (.*)", line)
            if comment and re.search(r"\b[a-z]+_[a-z]", re.sub(r"`[^`]*`|\[[^\]]*\]", "", comment[1])):
                error(file, f"line {number} has a name outside of backticks: {comment[1]}")


def check_surface():
    for path, why in surface.compare(TOP):
        error(path, why)


def contracts(text):
    """The texts of the clauses of public functions, and of the ghost members of traits and their impls."""
    for found in re.finditer(r"(?m)^( *)pub fn .*?(?=^\1\{|;\n\n|;\n\1\})", text, re.S):
        yield found[0]
    for found in re.finditer(r"(?m)^ *ghost (?!use|coded|invariant)[a-z_]+(:| =) \{.*?\};", text, re.S):
        yield found[0]
    for found in re.finditer(r"(?m)^pub trait .*?^\}", text, re.S):
        yield found[0]


def cited(file):
    """The words of this repository's specs/ that the public contracts of a file cite."""
    text = file.read_text()
    imported = {}
    for path, names in re.findall(r"ghost use Rattle\.(\w+\.specs\.[\w.]+)\.\{([^}]*)\}", text):
        if (CRATES / path.partition(".")[0]).is_dir() and ".declared." not in path and ".contracts." not in path:
            for name in names.split(","):
                word, _, other = name.strip().partition(" as ")
                imported[other or word] = word
    for clause in contracts(text):
        for word in re.findall(r"[A-Za-z_][\w']*", clause):
            if word in imported:
                yield imported[word]


def definitions(file):
    """The words that a file of specs/ defines, each with the comment right above it."""
    said = []
    for line in file.read_text().splitlines():
        found = re.match(r"(?:(?:abbrev|unfoldable|pub|record|data) )+([A-Za-z_][\w']*) ", line)
        if line.startswith("-- "):
            said.append(line[3:])
        elif found and not line.startswith(("pub mod", "pub use")):
            yield found[1], " ".join(said)
            said = []
        else:
            said = []


def check_definitions():
    """A word that stands inside a definition, as a case of it does, is said there; those of a file of views are said at its head."""
    commented, within = set(), set()
    for file in CRATES.glob("*/specs/*.antt"):
        commented |= {word for word, said in definitions(file) if said or file.stem == "Views"}
        within |= set(re.findall(r"(?m)^  (?:pub )?([A-Za-z_][\w']*) :", file.read_text()))
    for file in sorted(CRATES.glob("*/src/**/*.rt")):
        for word in sorted(set(cited(file)) - commented - within):
            error(file, f"it cites {word}, which has no comment in specs/")
            commented.add(word)


def check_specs():
    for file in sorted(CRATES.glob("*/specs/*.antt")):
        text = file.read_text()
        if file.name != "Lib.antt" and not text.startswith(("-- Meaning: ", "-- Machinery: ")):
            error(file, "its first line doesn't say whether it is meaning or machinery")


def check_words():
    """A word of definitions is defined in one file."""
    words = {}
    for file in sorted(CRATES.glob("*/specs/*.antt")):
        for line in file.read_text().splitlines():
            found = DEFINITION.match(line)
            if found and not line.startswith(("pub mod", "pub use")):
                other = words.setdefault(found[1], file)
                if other != file:
                    error(file, f"{found[1]} is defined in {other.relative_to(CRATES)} too")


def check_characters():
    """Definitions and contracts name the characters that they compare with or prepend (CODE). Codes below 10 are digits elsewhere."""
    characters = CRATES / "bib_text" / "specs" / "Characters.antt"
    names = {int(code): name for name, code in NAMED.findall(characters.read_text()) if int(code) > 9}
    for file in sorted([*CRATES.glob("*/specs/*.antt"), *CRATES.glob("*/src/**/*.rt")]):
        if file == characters:
            continue
        for number, line in enumerate(clauses(file).splitlines(), 1):
            for code in {int(one or other) for one, other in CODE.findall(line)} & set(names):
                error(file, f"line {number} says {code} where it means char.{names[code]}")


def clauses(file):
    """The text of a file of definitions; of code, only that in the braces of its clauses, with all line ends."""
    text = file.read_text()
    if file.suffix == ".antt":
        return text
    kept, depth = [], 0
    for line in text.splitlines():
        begins = depth == 0 and CLAUSE.match(line)
        if depth or begins:
            depth += line.count("{") - line.count("}")
            kept.append(line)
        else:
            kept.append("")
    return "\n".join(kept)


def check_widths():
    """No line of a definition or a proof is over 140 characters, except imports and literal texts."""
    for file in sorted([*CRATES.glob("*/specs/*.antt"), *CRATES.glob("*/proofs/**/*.antt")]):
        for number, line in enumerate(file.read_text().splitlines(), 1):
            if len(line) > 140 and not line.startswith(("use ", "pub use ")) and not line.lstrip().startswith('"'):
                error(file, f"line {number} has {len(line)} characters")


def exported():
    """The names that biblatex exports, its own ones and those of the crates below."""
    library = (CRATES / "biblatex" / "src" / "lib.rt").read_text()
    return set(re.findall(r"\b(\w+)[,;}]", " ".join(re.findall(r"pub use ([^;]+;)", library))))


def calls(file, names):
    """The public functions of a file that may be refused memory: those of an exported type, and exported ones."""
    within = None
    for line in re.finditer(r"(?m)^(impl\b[^{]*|\}|( *)pub fn (\w+)[^{;]*?(?=\n *(?:ensures|requires|\{)|\{))", file.read_text()):
        text = line[0]
        if text.startswith(("impl", "}")):
            found = re.search(r"(\w+)(?:<[^<>]*>)?$", text.strip())
            within = found[1] if found else None
        elif re.search(r"Error>|AllocFailed<", text) and (within if line[2] else line[3]) in names:
            yield within if line[2] else None, line[3]


def check_calls():
    tests = [*TOP.glob("tests/src/**/*.rs"), *CRATES.glob("guide/src/**/*.rt")]
    text = "\n".join(it.read_text() for it in tests)
    names = exported()
    for file in sorted(CRATES.glob("bib*/src/**/*.rt")):
        for within, name in calls(file, names):
            called = rf"[.:]{name}\b" if within else rf"\b{name}\("
            if not re.search(called, text):
                error(file, f"no test calls {within + '::' if within else ''}{name}, which may be refused memory")


def check_memory():
    for file in sorted(CRATES.glob("*/src/**/*.rt")):
        for line, what in out_of_memory.built(file.read_text()):
            error(file, f"line {line} builds {what}, and wasn't given an error that says that memory was refused")


def check_similar():
    """misspellings.rt lists the known names of fields that others resemble."""
    file = CRATES / "bibkit_commands" / "src" / "misspellings.rt"
    known = similar_names.listed((CRATES / "bib_findings" / "src" / "names.rt").read_text(), "KNOWN_FIELDS")
    if similar_names.listed(file.read_text(), "SIMILAR") != similar_names.similar(known):
        error(file, "its list doesn't have exactly the known names that others resemble, in order")


def check_rows():
    """A row is a line with a bar; the other lines are headings, and stand as they are."""
    for stdout in sorted(TOP.glob("tests/rows/*.stdout")):
        stdin = stdout.with_suffix("")
        rows, answers = stdin.read_text().split("\n"), stdout.read_text().split("\n")
        if len(rows) != len(answers):
            error(stdout, f"it has {len(answers)} lines, and {stdin.name} {len(rows)}")
        for number, (row, answer) in enumerate(zip(rows, answers), 1):
            if not (answer.startswith(f"{row} => ") if "|" in row else answer == row):
                error(stdout, f"line {number} doesn't begin with the row of {stdin.name}")
                break


def lines_of(code):
    """Lines of code without indentation, `use` and assertions; where the one prints, the other makes a text of it."""
    lines = [re.sub(r"print(ln)?!\(rt;", "let line = format!(in alloc;", it.strip()) for it in code.splitlines()]
    return "\n".join(it for it in lines if it and not it.startswith(("use ", "assert!", "//")))


def check_readme():
    """README.md is short, and the first example of LIBRARY.md is tested."""
    readme, library = TOP / "README.md", TOP / "docs" / "LIBRARY.md"
    test = TOP / "tests" / "src" / "bibliography_calls" / "first_example.rs"
    count = len(readme.read_text().splitlines())
    if count > 80:
        error(readme, f"it has {count} lines, and not 80 at most")
    example = re.search(r"```rust\n(.*?)```.*?```text\n(.*?)```", library.read_text(), re.S)
    tested = test.read_text() if test.is_file() else ""
    if not example or lines_of(example[1]) not in lines_of(tested):
        error(library, f"its first example is not the code of {test.relative_to(TOP)}")
    elif any(line not in tested for line in example[2].splitlines()):
        error(library, f"the output of its first example is not that of {test.relative_to(TOP)}")


def here():
    """The files of the repository, and the folders with a slash at their end, but for what is built."""
    for folder, folders, files in os.walk(TOP):
        folders[:] = [it for it in folders if it not in (".git", "out")]
        at = "/" + pathlib.Path(folder).relative_to(TOP).as_posix()
        yield from (f"{at}/{it}" for it in files)
        yield from (f"{at}/{it}/" for it in folders)


def check_documents():
    """A file is there where a path ends with its name; NAME and * stand for any name."""
    paths = "\n".join(here())
    crates = {it.name for it in CRATES.iterdir()}
    for document in [TOP / "README.md", *sorted(TOP.glob("docs/*.md")), *sorted(CRATES.glob("*/wrong/INDEX.md"))]:
        text = document.read_text()
        named = set(re.findall(r"(?<![\w/.*-])[\w./*-]+\.(?:md|py|sh|txt|antt|rt|rs|edit|c|stdout)\b", text))
        named |= set(re.findall(r"(?<![\w/.*`-])(?:[\w.-]+/)+(?=[\s,;:.)])", text))
        for name in sorted(named):
            pattern = re.escape(name.removeprefix("../").removeprefix("./")).replace(r"\*", "[^/\n]*").replace("NAME", r"[^/\n]*")
            if not re.search(rf"(?m)/{pattern}$", paths) and "out/" not in name:
                error(document, f"it names {name}, which isn't there")
        for name in sorted(set(re.findall(r"`(bib_\w+)(?:`|::)", text)) - crates):
            error(document, f"it names the crate {name}, which isn't there")


def layers():
    """The layers of crates.txt from the lowest up: the name of each, and its crates with the crates that each uses."""
    found = []
    for line in (TOP / "crates.txt").read_text().splitlines():
        name, colon, below = line.partition(":")
        if line.startswith("# ") and found and not found[-1][1]:
            found[-1] = (line[2:], [])
        elif line.startswith("# "):
            found.append((line[2:], []))
        elif colon:
            found[-1][1].append((name.split()[0], below.split()))
    return found


def purpose(crate):
    """The first sentence of the comment at the head of a crate."""
    head = next(it for name in ("lib", "main") if (it := CRATES / crate / "src" / f"{name}.rt").is_file())
    lines = [it[3:].strip() for it in head.read_text().splitlines() if it.startswith("//!")]
    text = " ".join(lines[: lines.index("") if "" in lines else None])
    return re.split(r"(?<=\.) ", text)[0]


def crates_table():
    """The table of crates in CONTRIBUTING.md, by layer: what each crate is."""
    lines = ["| crate | what it is |", "|---|---|"]
    for layer, crates in layers():
        lines.append(f"| **{layer}** | |")
        lines += [f"| `{name}` | {purpose(name)} |" for name, _ in crates]
    return lines


def check_layers():
    """A crate uses only crates of lines above its own, and crates.txt names for it only those that its files mention."""
    list_file = TOP / "crates.txt"
    above, own = [], {name for _, crates in layers() for name, _ in crates}
    for _, crates in layers():
        for name, below in crates:
            files = [it for it in CRATES.glob(f"{name}/*/**/*") if it.suffix in (".rt", ".antt")]
            text = "\n".join(it.read_text() for it in files)
            for other in below:
                if other in own and other not in above:
                    error(list_file, f"{name} uses {other}, which is not above it")
                if not re.search(rf"\b{other}\b", text):
                    error(list_file, f"it names {other} for {name}, which doesn't mention it")
            above.append(name)


def check_crates_table():
    """CONTRIBUTING.md has the table of crates that `check.py --crates` prints."""
    document = TOP / "docs" / "CONTRIBUTING.md"
    lines = document.read_text().splitlines()
    table = crates_table()
    start = lines.index(table[0]) if table[0] in lines else None
    if start is None or lines[start : start + len(table)] != table or lines[start + len(table) : start + len(table) + 1] != [""]:
        error(document, "its table of crates is not what `check.py --crates` prints")


def check_theorems():
    """The table of words names the files where they stand, and the other one calls that the sources have."""
    theorems = TOP / "docs" / "THEOREMS.md"
    sources = "\n".join(it.read_text() for it in CRATES.glob("*/src/**/*.rt"))
    for line in theorems.read_text().splitlines():
        columns = [it.strip() for it in re.split(r"(?<!\\)\|", line)]
        words = re.findall(r"`([\w:]+)`", columns[1] if len(columns) == 5 else "")
        files = re.findall(r"(\w+\.antt)", columns[3] if len(columns) == 5 else "")
        crate = re.match(r"(\w+)/specs/", columns[3])[1] if files and "/specs/" in columns[3] else "*"
        defined = {it[0] for name in files for file in CRATES.glob(f"{crate}/specs/{name}") for it in definitions(file)}
        for word in words if files else []:
            if word not in defined:
                error(theorems, f"{word} isn't defined in {columns[3]}")
        for call in re.findall(r"`([\w:]+)`", columns[2] if len(columns) == 5 and not files else ""):
            if not re.search(rf"\b{call.rpartition('::')[2]}\b", sources):
                error(theorems, f"no source has {call}")


def check_tables():
    for path, why in tables.compare(TOP):
        error(path, why)


def main():
    names = edits()
    for rule in (
        check_indexes, check_promised, check_comments, check_surface, check_definitions, check_specs, check_words, check_characters,
        check_widths, check_calls, check_memory, check_similar, check_rows, check_readme, check_documents, check_layers,
        check_crates_table, check_theorems, check_tables,
    ):
        rule()
    for it in errors:
        print(f"check: {it}")
    print(f"check: {len(names['must-fail'])} wrong bodies for the gate and {len(names['wrong'])} others, {len(errors)} errors")
    return 1 if errors else 0


if __name__ == "__main__":
    if sys.argv[1:2] == ["--crates"]:
        print("\n".join(crates_table()))
        sys.exit()
    sys.exit(main())
