"""Calls BibTeX, bibtool and Biber, and returns what each read of the text of a .bib file. bench/damage.py compares these readings."""
import os
import pathlib
import re
import shutil
import subprocess
from typing import NamedTuple

SECONDS = 300
PACKAGES = {"bibtex": "texlive-binaries", "plain.bst": "texlive-base", "bibtool": "bibtool", "biber": "biber"}
NO_ENTRY = {"string", "comment", "preamble"}
MONTHS = "January February March April May June July August September October November December".split()
# BibTeX gives no field or type a name that it has itself, and none that begins with a digit.
FIELD_NAME = re.compile(r"(?<![^\s,{\"}])([A-Za-z][^\s\"#%'(),={}$]*)\s*=")
TYPE_NAME = re.compile(r"@\s*([A-Za-z][^\s\"#%'(),={}$@]*)\s*[{(]")
HEAD = re.compile(r"^[ \t]*@\s*([\w+*.:/-]+)\s*[{(]", re.M)
KEY = re.compile(r"\s*([^,\s}]*)\s*,?")
FIELD = re.compile(r"[\s,]*([^\s=,{}\"]+)\s*=\s*")
DEFINITION = re.compile(r"\s*([^\s=]+)\s*=\s*")
CONFIG = pathlib.Path("/usr/share/perl5/Biber/biber-tool.conf")
INHERITANCE = re.compile(r"\\DeclareDataInheritance\{([^}]*)\}\s*\{([^}]*)\}\{%\n(.*?)\n\}", re.S)
# An abbreviation stands between these in a value.
NAME = "\x01"


class Entry(NamedTuple):
    """An entry as a program read it; the fields are pairs of a name and a text."""
    key: str
    entry_type: str
    fields: list


class Reading(NamedTuple):
    """What a program read of a file. Of BibTeX: the preamble, what plain prints for each key, its messages, and those on all fields."""
    entries: list
    messages: list
    all_messages: list
    preamble: str = ""
    printed: dict = {}


def missing():
    """The programs and styles that are not here."""
    absent = [it for it in ("bibtex", "bibtool", "biber") if not shutil.which(it)]
    if "bibtex" not in absent:
        found = subprocess.run(["kpsewhich", "plain.bst"], capture_output=True).stdout
        absent += [] if found.strip() else ["plain.bst"]
    return absent


class NoAnswer(Exception):
    """A program took too long."""


def call(words, room, text=b""):
    """Status, output and messages of a program that runs in a folder."""
    try:
        done = subprocess.run(words, input=text, capture_output=True, cwd=room, timeout=SECONDS)
    except subprocess.TimeoutExpired:
        raise NoAnswer(f"{os.path.basename(words[0])} gave no answer in {SECONDS} seconds") from None
    return done.returncode, done.stdout, done.stderr


def squeezed(text):
    """A text with single spaces in the place of white space."""
    return " ".join(text.split())


def written(path):
    """The text of a file that a program wrote, by bytes; nothing if it wrote none."""
    return path.read_bytes().decode("latin-1") if path.is_file() else ""


# BibTeX: the style plain, and a style that prints every field.

def dump_style(text):
    """A style for BibTeX that prints key, type and all fields of each entry."""
    fields = sorted({it.lower() for it in FIELD_NAME.findall(text)} - {"crossref"})
    types = sorted({it.lower() for it in TYPE_NAME.findall(text)} - NO_ENTRY - set(fields) - {"crossref"})
    lines = ["ENTRY {", *fields, "} {} {}", "FUNCTION {zz.dump} {"]
    lines.append('"ENTRYX=" cite$ * write$ newline$ "TYPEX=" type$ * write$ newline$')
    lines += [f"{it} missing$ 'skip$ {{ \"FIELDX={it}=\" {it} * write$ newline$ }} if$" for it in ["crossref", *fields]]
    lines += ["}", "FUNCTION {default.type} {zz.dump}"]
    lines += [f"FUNCTION {{{it}}} {{zz.dump}}" for it in types]
    lines += [f'MACRO {{{it[:3].lower()}}} {{"{it}"}}' for it in MONTHS]
    lines += ["READ", 'FUNCTION {zz.end} { "ENDX=" preamble$ * write$ newline$ }', "ITERATE {call.type$}", "EXECUTE {zz.end}"]
    return "\n".join(lines) + "\n"


def bibtex_messages(log):
    """Warnings and errors of a log of BibTeX, without lines and files."""
    for line in log.splitlines():
        found = re.match(r"(.*?)-+line \d+ of file", line)
        if line.startswith(("Warning--", "A bad cross reference", "refers to entry", "Sorry")) or "Too many" in line:
            yield line
        elif found and found[1]:
            yield found[1]


def dumped(output):
    """The entries and the preamble of the output of the style that prints all fields."""
    entries, parts, preamble = [], None, []
    for line in output.splitlines():
        if line.startswith("ENTRYX="):
            entries.append(Entry([line[7:]], [], []))
            parts = entries[-1].key
        elif line.startswith("TYPEX="):
            parts = entries[-1].entry_type
            parts.append(line[6:])
        elif line.startswith("FIELDX="):
            _, name, value = line.split("=", 2)
            parts = [value]
            entries[-1].fields.append((name, parts))
        elif line.startswith("ENDX="):
            parts = preamble
            parts.append(line[5:])
        elif parts is not None:
            parts.append(line)
    join = lambda texts: squeezed(" ".join(texts))
    return [Entry(join(it.key), join(it.entry_type), [(name, join(value)) for name, value in it.fields]) for it in entries], join(preamble)


def bibtex(text, room):
    """What BibTeX reads: entries with inherited fields, abbreviations expanded; messages and prints are those of plain."""
    room = pathlib.Path(room)
    (room / "file.bib").write_bytes(text)
    (room / "dump.bst").write_text(dump_style(text.decode("latin-1")), encoding="latin-1")
    output = {}
    for style in ("plain", "dump"):
        for suffix in ("bbl", "blg"):
            (room / f"{style}.{suffix}").unlink(missing_ok=True)
        (room / f"{style}.aux").write_text(f"\\relax\n\\citation{{*}}\n\\bibstyle{{{style}}}\n\\bibdata{{file}}\n")
        call(["bibtex", style], room)
        output[style] = written(room / f"{style}.bbl")
    entries, preamble = dumped(output["dump"])
    blocks = [squeezed(it.replace("\\end{thebibliography}", "")) for it in output["plain"].split("\\bibitem")[1:]]
    printed = {found[1]: it for it in blocks if (found := re.match(r"\{([^}]*)\}", it))}
    plain, dump = (sorted(bibtex_messages(written(room / f"{style}.blg"))) for style in ("plain", "dump"))
    return Reading(entries, plain, dump, preamble, printed)


# bibtool and Biber print a regular text, which is read here.

def braced(text, start):
    """The place after the closing brace that belongs to the brace at a place."""
    depth, place = 0, start
    while place < len(text):
        depth += (text[place] == "{") - (text[place] == "}")
        place += 1
        if depth == 0:
            break
    return place


def quoted(text, start):
    """The place after the quote that ends the text that begins at a place, braces counted."""
    depth, place = 0, start + 1
    while place < len(text) and (text[place] != '"' or depth > 0):
        depth += (text[place] == "{") - (text[place] == "}")
        place += 1
    return place + 1


def value(text, place):
    """The joined texts of a value, and the place after it."""
    parts = []
    while place < len(text):
        end = braced(text, place) if text[place] == "{" else quoted(text, place) if text[place] == '"' else None
        if end is None:
            found = re.compile(r"[^\s,#}]*").match(text, place)
            parts.append(found[0] if not found[0] or found[0].isdigit() else NAME + found[0].lower() + NAME)
            place = found.end()
        else:
            parts.append(text[place + 1:end - 1])
            place = end
        joined = re.compile(r"\s*#\s*").match(text, place)
        if not joined:
            break
        place = joined.end()
    return "".join(parts), place


def fields_at(text, place):
    """The fields that stand at a place, and the place after them."""
    fields = []
    while found := FIELD.match(text, place):
        content, place = value(text, found.end())
        fields.append((found[1].lower(), squeezed(content)))
    return fields, place


def printed_entries(text, definitions=None):
    """The entries of a regular text. With a dictionary of definitions, abbreviations are expanded, those of the text too."""
    entries, known, place = [], {} if definitions is None else definitions, 0
    while found := HEAD.search(text, place):
        entry_type, place = found[1].lower(), found.end()
        if entry_type == "string":
            if name := DEFINITION.match(text, place):
                known[name[1].lower()], place = value(text, name.end())
        elif entry_type not in NO_ENTRY:
            key = KEY.match(text, place)
            fields, place = fields_at(text, key.end())
            entries.append(Entry(key[1], entry_type, fields))
    if definitions is None:
        return entries
    return [Entry(it.key, it.entry_type, [(name, squeezed(expanded(content, known))) for name, content in it.fields]) for it in entries]


def expanded(content, definitions, depth=20):
    """A value with the definitions of its abbreviations in their places."""
    def definition(found):
        """The text of an abbreviation, itself expanded."""
        known = definitions.get(found[1])
        return found[0] if known is None or depth == 0 else expanded(known, definitions, depth - 1)
    return re.sub(f"{NAME}([^{NAME}]*){NAME}", definition, content)


def bibtool(text, room):
    """What bibtool reads, abbreviations expanded, without inherited fields."""
    room = pathlib.Path(room)
    (room / "tool.bib").write_bytes(text)
    types = sorted({it.lower() for it in TYPE_NAME.findall(text.decode("latin-1"))} - NO_ENTRY - {"include", "alias", "modify"})
    options = ["preserve.key.case = on", "preserve.keys = on", "expand.macros = on", "print.line.length = 1000", "quiet = on"]
    options += [f'new.entry.type = "{it}"' for it in types]
    (room / "tool.rsc").write_text("\n".join(options) + "\n", encoding="latin-1")
    _, output, said = call(["bibtool", "-r", "tool.rsc", "tool.bib"], room)
    lines = [it for it in said.decode("latin-1").splitlines() if "***" in it]
    messages = sorted(squeezed(re.sub(r"\(?line \d+.*?\)?:", " ", it)) for it in lines)
    return Reading(printed_entries(output.decode("latin-1")), messages, messages)


def inheritance_rows(declaration):
    """The lines of a configuration of Biber for a declaration of biblatex.def."""
    sources, targets, lines = declaration
    yield "<inherit>"
    for source in sources.split(","):
        yield from (f'<type_pair source="{source}" target="{target}"/>' for target in targets.split(","))
    for command, names in re.findall(r"\\(inherit|noinherit)((?:\{\w+\})+)", lines):
        first, *second = re.findall(r"\w+", names)
        yield f'<field source="{first}" target="{second[0]}"/>' if command == "inherit" else f'<field source="{first}" skip="true"/>'
    yield "</inherit>"


def configuration():
    """A configuration of Biber with the rules of inheritance of BibLaTeX."""
    path = subprocess.run(["kpsewhich", "biblatex.def"], capture_output=True, text=True, check=True).stdout.strip()
    lines = [line for it in INHERITANCE.findall(pathlib.Path(path).read_text()) for line in inheritance_rows(it)]
    rules = ['<inheritance><defaults inherit_all="true" override_target="false"></defaults>', *lines, "</inheritance>"]
    return re.sub(r"<inheritance>.*?</inheritance>", lambda _: "\n".join(rules), CONFIG.read_text(), flags=re.S)


def biber(text, room, is_resolved=False):
    """What Biber reads, abbreviations expanded; with inherited fields, by the rules of BibLaTeX, if it is asked to resolve them."""
    room = pathlib.Path(room)
    for name in ("file_bibertool.bib", "file.bib.blg"):
        (room / name).unlink(missing_ok=True)
    (room / "file.bib").write_bytes(text)
    words = ["biber", "--tool", "--nodieonerror", "--output-fieldcase=lower"]
    if is_resolved:
        (room / "biber.conf").write_text(configuration())
        words += ["--output-resolve", f"--configfile={room / 'biber.conf'}"]
    words.append("file.bib")
    call(words, room)
    log = written(room / "file.bib.blg")
    lines = [re.sub(r"^\[\d+\][^>]*> ", "", it) for it in log.splitlines() if re.search(" (WARN|ERROR) ", it)]
    lines = [re.sub(r"line \d+|\S*/\S+|file\.bib\S*|\(\d+\)|found at", "", it) for it in lines if not re.search("(WARNINGS|ERRORS):", it)]
    definitions = {}
    printed_entries(text.decode("latin-1"), definitions)
    entries = printed_entries(written(room / "file_bibertool.bib"), definitions)
    entries = [Entry(it.key, it.entry_type, [(name, as_stored(name, content)) for name, content in it.fields]) for it in entries]
    return Reading(entries, sorted(lines), sorted(lines))


def as_stored(name, content):
    """A value that Biber printed, without what it changes itself: it prints options in any order, and encodes some texts twice."""
    if name == "options":
        return ",".join(sorted(content.split(",")))
    for _ in range(2):
        try:
            content = content.encode("latin-1").decode()
        except UnicodeError:
            break
    return content
