#!/usr/bin/env python3
"""Records what the Rust crate `biblatex` 0.12.0 makes of many inputs: tests/original/make.py ORIGINAL > tests/original/outputs.jsonl

ORIGINAL is the Rust crate behind a small command line program, which reads standard input and has the commands `keys`, `biblatex`,
`bibtex` and `check` of `bib`. The inputs are those of tests/original/differences.jsonl, each line of tests/original/inputs.txt (in
which ⏎ is a line feed), and those that the functions below make, with one seed. Each line of the output is a JSON object: the input
`in`, and for each command the status and what was printed, or the name of an earlier command that printed the same with the same
status. The status -6 is a signal, as the original overflowed its stack; the status 101 is a panic.
"""
import json
import pathlib
import random
import subprocess
import sys

COMMANDS = ("keys", "biblatex", "bibtex", "check")
HERE = pathlib.Path(__file__).resolve().parent
SEED = 20_120

TYPES = """article book mvbook inbook bookinbook suppbook booklet collection mvcollection incollection suppcollection dataset manual misc
    online patent periodical suppperiodical proceedings mvproceedings inproceedings reference mvreference inreference report set software
    thesis unpublished phdthesis mastersthesis techreport conference electronic www letter Foo""".split()
FIELDS = """author editor title subtitle journal journaltitle publisher location address institution school booktitle note series number
    edition isbn issn howpublished organization eventtitle venue version type chapter addendum abstract""".split()
WORDS = "The Art of Proof On Big Data and Other Machines in Zürich Straße ﬁne 東京 Ωmega naïve e.g. A-B 3D NASA".split()
MONTHS = "jan feb mar apr may jun jul aug sep oct nov dec JAN Mar sept".split()
NAMES = ["Doe, Jane", "de la Fontaine, Jean", "Donald E. Knuth", "Mudd, Sr., Harcourt", "{Barnes and Noble}", "family=Cruz, given=Maria",
         "Müller, Jürgen", "Ludwig van Beethoven", "{\\'E}tienne Bézout", "G\\\"odel, Kurt", "others"]


def words(chance, low=1, high=5):
    return " ".join(chance.choice(WORDS) for _ in range(chance.randint(low, high)))


def braced(chance, text):
    return chance.choice(("{%s}", '"%s"')) % text


def entry(kind, key, fields):
    return "@%s{%s,%s}" % (kind, key, ",".join(f" {name} = {value}" for name, value in fields))


def entries_of_all_types(chance):
    """An entry of a type with fields by chance."""
    kind = chance.choice(TYPES)
    fields = [(name, braced(chance, words(chance))) for name in chance.sample(FIELDS, chance.randint(0, 6))]
    if chance.random() < 0.6:
        fields.append(("author", braced(chance, " and ".join(chance.sample(NAMES, chance.randint(1, 3))))))
    if chance.random() < 0.6:
        fields.append(chance.choice((("year", "{1999}"), ("date", "{2001-02-03}"), ("year", "1984"))))
    if chance.random() < 0.4:
        fields.append(chance.choice((("pages", "{1--12, 20}"), ("volume", "7"), ("volume", "{7th}"), ("pages", "{1-}"), ("volumes", "{2}"))))
    return entry(kind, chance.choice(("k", "a:b", "Ü-1", "x.y")), fields)


PIECES = ["a", " ", "--", "---", "-", "  ", "\\&", "\\%", "\\#", "\\_", "\\$", "\\{", "\\}", "\\\\", "\\:", "{", "}", "{", "}", "{B}", "\\emph{c d}",
          "\\\"o", "\\'{e}", "\\`a", "\\c{c}", "\\c c", "\\v{s}", "\\H{o}", "\\k a", "\\r{a}", "\\b b", "\\d{a}", "\\u g", "\\=a", "\\.z", "\\'\\i",
          "\\ss", "\\o ", "\\AE", "\\LaTeX", "\\LaTeX{}", "\\ldots", "\\textbf{x{y}z}", "\\aa{}", "\\L{}", "\\dots ", "\\foo bar", "$x + 1$", "$a$", "\n",
          "\t", "é", "\\ ", "\\textsc{\\'e}", "\\'", "\\c", "\\~n", "\\~{n}", "\\^o", "\\copyright", "\\S{}", "\\-", "[", "]", "@", "'", "`"]


def balanced(text):
    """The text with its braces closed, as far as no backslash hides one."""
    depth, hidden, out = 0, False, []
    for c in text:
        if not hidden and c == "}" and not depth:
            continue
        depth += (not hidden) * ((c == "{") - (c == "}"))
        hidden = not hidden and c == "\\"
        out.append(c)
    return "".join(out) + " " * hidden + "}" * depth


def contents(chance):
    """A field of commands, accents, escapes, hyphens, white space, braces and math."""
    text = "".join(chance.choice(PIECES) for _ in range(chance.randint(1, 7)))
    name = chance.choice(("title", "title", "title", "note", "author", "url", "file", "DOI"))
    return entry("misc", "k", [(name, "{%s}" % balanced(text))])


def verbatim(chance):
    """A verbatim field, which keeps most backslashes."""
    text = "".join(chance.choice(("http://a.b/", "x", "_", "%20", "#", "&", "~", "^", "\\", "\\\\", "\\{", "\\}", "{", "}", "--", " ", "$", "é", ":", "\\:"))
                   for _ in range(chance.randint(1, 8)))
    return entry("online", "k", [(chance.choice(("url", "doi", "file", "eprint", "urlraw", "pdf", "verba")), "{%s}" % balanced(text))])


def number(chance, low, high, width=2):
    return f"{chance.randint(low, high):0{width}}"


def date_text(chance):
    year = chance.choice(("2020", "1999", "-0044", "0001", "19XX", "198X", "44", "12345", "98", " 2001", "+2003"))
    parts = [year] + [number(chance, 1, high) for high in (12, 31)[:chance.randint(0, 2)]]
    text = "-".join(parts)
    if len(parts) == 3 and chance.random() < 0.3:
        text += chance.choice(("T10:20:30", "T10:20:30Z", "T10:20:30+01:00", "T10", "T25:00:00", "T10:61"))
    return text + chance.choice(("", "", "", "?", "%", " "))


def dates(chance):
    """A date, or a range of two."""
    text = date_text(chance)
    how = chance.random()
    if how < 0.15:
        text += "/" + date_text(chance)
    elif how < 0.3:
        text = chance.choice((text + "/", "/" + text, text + "/..", "../" + text, "../..", "soon", "2020-13", "2020-02-30", "2020-XX", "2020-05-XX"))
    name = chance.choice(("date", "date", "urldate", "eventdate", "origdate"))
    return entry("misc", "k", [(name, "{%s}" % text)])


def dates_in_three_fields(chance):
    prefix = chance.choice(("", "", "event", "orig", "url"))
    fields = [(prefix + "year", braced(chance, chance.choice(("2020", "44 BC", "1 CE", "AD 5", "12345", "0 BCE", "3 bce", "soon", "1984a", "-5", "7"))))]
    if chance.random() < 0.8:
        fields.append((prefix + "month", chance.choice(("{3}", "{12}", "{March}", "{sep}", "{xyz}", "{May 3}", "{7 30}", "{4-12}", *MONTHS[:13]))))
    if chance.random() < 0.5:
        fields.append((prefix + "day", chance.choice(("{3}", "{31}", "{32}", "{x}", "{+4}", "7"))))
    chance.shuffle(fields)
    return entry(chance.choice(("misc", "article", "book")), "k", fields)


def abbreviations(chance):
    """Definitions, months and joined pieces, some of them without a definition."""
    names = ["s", "t", "pub", "jan", "a:b"]
    out = [f"@string{{{name} = {' # '.join(definition(chance, names[:at]))}}}" for at, name in enumerate(names) if chance.random() < 0.6]
    value = " # ".join(chance.choice((*names[:4], *MONTHS, '"x "', "{ y}", "12", "{{Z}}")) for _ in range(chance.randint(1, 4)))
    use = entry("misc", "k", [("title", value), ("month", chance.choice(MONTHS))])
    out.insert(chance.randint(0, len(out)), use)
    return chance.choice((" ", "\n")).join(out)


def definition(chance, names):
    return [chance.choice((*names, "{A b}", '"C"', "{d {E} }", "7")) for _ in range(chance.randint(1, 2))]


PARENTS = ("book", "collection", "proceedings", "periodical", "misc", "report", "thesis", "reference")
CHILDREN = ("inbook", "incollection", "inproceedings", "article", "misc", "inreference", "suppbook", "suppcollection", "suppperiodical")


def inheritance(chance):
    """A child without a date that refers to a parent or to data, or to nothing."""
    offered = ["title", "subtitle", "publisher", "location", "address", "isbn", "issn", "series", "volume", "note", "institution", "school",
               "journal", "journaltitle", "editor", "author", "booktitle", "url", "organization", "number"]
    parent = [(it, "{%s %d}" % (it.title(), at)) for at, it in enumerate(chance.sample(offered, chance.randint(1, 6)))]
    if chance.random() < 0.5:
        parent.append(chance.choice((("date", "{2001-05}"), ("year", "{1999}"), ("date", "{2000/2001}"), ("date", "{2010-01-02T10:00:00}"))))
    data = [(it, "{%s X}" % it.title()) for it in chance.sample(offered, chance.randint(1, 3))]
    own = [(it, "{%s own}" % it.title()) for it in chance.sample(offered, chance.randint(0, 2))]
    own.append(chance.choice((("crossref", "{p}"), ("crossref", "{q}"), ("xdata", "{x}"), ("crossref", "{p}"), ("xdata", "{x, y}"))))
    if chance.random() < 0.3 and own[-1][0] == "crossref":
        own.append(("xdata", "{x}"))
    texts = [entry(chance.choice(PARENTS), "p", parent), entry("xdata", "x", data), entry(chance.choice(CHILDREN), "c", own)]
    chance.shuffle(texts)
    return "\n".join(texts)


def names_of_entries(chance):
    """Entries whose keys and `ids` may be equal."""
    keys = ["a", "b", "c", "A", "ä"]
    out = []
    for _ in range(chance.randint(2, 4)):
        fields = [("title", "{%s}" % words(chance, 1, 2))]
        if chance.random() < 0.4:
            fields.append(("ids", "{%s}" % ", ".join(chance.sample(keys, chance.randint(1, 2)))))
        out.append(entry("misc", chance.choice(keys), fields))
    return " ".join(out)


WHOLE = ['@article{a, title={A {B} c}, year = 1999, note = "x" # jan}', "@book{b,\n  author = {A and B},\n  title = {T}, % note\n}\n",
         '@string{s = {x}} @misc{k, title = s # " y", url={a_b}}', '@preamble{"p"} @comment{c} % @misc{x,}\n@misc{m, title={t},}',
         "text @inbook{i, crossref={p}, pages={1--2}} more @book{p, title={P}}"]


def spoiled(chance):
    """A text that is cut, or has a character more or less."""
    text = chance.choice(WHOLE)
    at = chance.randrange(len(text))
    how = chance.random()
    if how < 0.4:
        return text[:at]
    if how < 0.7:
        return text[:at] + text[at + 1:]
    return text[:at] + chance.choice('{}@,="#%\\ \né$1') + text[at:]


KINDS = ((entries_of_all_types, 110), (contents, 130), (verbatim, 50), (dates, 70), (dates_in_three_fields, 60), (abbreviations, 50),
         (inheritance, 80), (names_of_entries, 30), (spoiled, 110))


def inputs():
    """The inputs of the differences, the written ones, and those that are made."""
    for line in (HERE / "differences.jsonl").read_text(encoding="utf-8").rstrip("\n").split("\n"):
        yield json.loads(line)["in"]
    for line in (HERE / "inputs.txt").read_text(encoding="utf-8").rstrip("\n").split("\n"):
        yield line.replace("⏎", "\n")
    chance = random.Random(SEED)
    for kind, count in KINDS:
        for _ in range(count):
            yield kind(chance)


def recorded(original, text):
    """The input with what the original prints of it, and its statuses."""
    row = {"in": text}
    for command in COMMANDS:
        done = subprocess.run([original, command], input=text.encode(), stdout=subprocess.PIPE, stderr=subprocess.DEVNULL)
        found = [done.returncode, done.stdout.decode()]
        row[command] = next((it for it in COMMANDS if row.get(it) == found), found)
    return row


def main(words):
    if len(words) != 1:
        print(__doc__, file=sys.stderr)
        return 2
    for text in dict.fromkeys(inputs()):
        print(json.dumps(recorded(words[0], text), ensure_ascii=False, separators=(",", ":")))
    return 0


if __name__ == "__main__":
    sys.exit(main(sys.argv[1:]))
