"""Compares the tables of docs/CSL.md, and some of its lists of names, with the definitions in specs/ that they describe.

`compare(top)` yields a path and a message for each difference: a name that only the page or only the definition has, and a name with
another value. A definition or a table that is missing, and a clause of a form that tables.py doesn't know, are reported too, so that
no comparison is skipped.

In a cell, commas, `or` and `and` separate names, and semicolons separate groups. Conditions, such as `if the entry has no title`,
and descriptions of several words aren't compared.
"""
import itertools
import re

from clauses import ANY, KEY, Definitions, Unreadable

CONDITION = re.compile(r",? (?:as for|if|unless|for|except|in a series|without)\b[^;]*?(?=,? otherwise |;|$)")
ADDRESS = re.compile(r"the address of the eprint(?: \(next row\))?")
NEIGHBOUR = re.compile(r",? and the fields of the row (above|below) become ([\w-]+)")
# names that the definitions for records use, which are no variables of CSL (crates/bib_from_ris/specs/Tags.antt)
INNER = {"last-page": "page", "day": "issued", "id": KEY}
# the table of commands names these texts
SIGNS = {"a hyphen": "-", "a slash": "/", "a full stop": ".", "a space": " "}


class Page:
    """The sections of a document."""

    def __init__(self, file):
        self.file = file
        self.sections = dict(re.findall(r"(?ms)^## ([^\n]+)\n(.*?)(?=^## |\Z)", file.read_text()))

    def table(self, heading, head):
        """The cells of each row of the table with this first line, in the section with this heading."""
        text = "\n" + self.sections.get(heading, "")
        _, found, rest = text.partition(f"\n| {head} |\n|---|")
        if not found:
            raise Unreadable(self.file, f"the section `{heading}` has no table `{head}`")
        lines = itertools.takewhile(lambda it: it.startswith("|"), rest.splitlines()[1:])
        return [[it.strip() for it in line.strip("|").split("|")] for line in lines]

    def part(self, heading, pattern):
        """The texts in a section that the groups of a pattern match, where a space matches a line end too."""
        found = re.search(pattern, " ".join(self.sections.get(heading, "").split()))
        if not found:
            raise Unreadable(self.file, f"the section `{heading}` has no sentence `{pattern}`")
        return found.groups()


def quoted(text):
    """The texts in backticks."""
    return re.findall(r"`([^`]*)`", text)


def plain(cell):
    """A cell without texts in backticks and parentheses, and without conditions."""
    return CONDITION.sub("", re.sub(r"`[^`]*`|\([^)]*\)", "", ADDRESS.sub("eprint or eprinttype or archiveprefix", cell)))


def names(text):
    """The names in a text. A part of several words is a description."""
    parts = [it.strip() for it in re.split(r"[,;]|\b(?:or|and|with|also|otherwise)\b", text)]
    return [it for it in parts if re.fullmatch(rf"[\w-]+|{ANY}|{KEY}", it) and it != "dropped"]


def elements(text):
    """The names in each element of a list with commas. Names with `or` or `and` between them are one element."""
    return [names(it) for it in re.split(r", (?!or |and |otherwise )", text)]


def pairs(left, right):
    """Each name of a left cell with each name of the right cell that belongs to it. Groups belong to each other in order, and so do the
    elements of two lists of the same length. In other cells all names belong to each other."""
    left, right = plain(left), plain(right)
    lefts, rights = left.split("; "), right.split("; ")
    if right == "the type of that name":
        return {(it, it) for it in names(left)}
    if len(lefts) > 1 and len(lefts) == len(rights):
        return set().union(*map(pairs, lefts, rights))
    found = set()
    for part in right.split(", with "):
        first, second = elements(left), elements(part)
        if len(first) != len(second) or not all(second):
            first, second = [names(left)], [names(part)]
        for some, others in zip(first, second):
            found |= set(itertools.product(some, others))
    return found


def table_pairs(rows):
    return set().union(*(pairs(left, right) for left, right, *_ in rows))


def of_table(table):
    """The pairs of a name and a value in a table of definitions."""
    return {(name, value) for name, values in table.items() for value in values}


def same(title, word, found, wanted):
    """The differences between the pairs that the page has and those of a definition. A name without a pair has the values of ANY."""
    known = {name for name, _ in found | wanted}
    found, wanted = ({*some, *((name, value) for name in known - {it for it, _ in some} for other, value in some if other == ANY)}
                     for some in (found, wanted))
    for name, value in sorted(found - wanted):
        yield f"{title}: `{name}` has `{value}` here, but not in `{word}`"
    for name, value in sorted(wanted - found):
        yield f"{title}: `{name}` has `{value}` in `{word}`, but not here"


def same_names(title, word, found, wanted):
    for name in sorted(set(found) - set(wanted)):
        yield f"{title}: it names `{name}`, which `{word}` lacks"
    for name in sorted(set(wanted) - set(found)):
        yield f"{title}: it lacks `{name}`, which `{word}` has"


def in_order(some, others):
    """The pairs of two lists of the same length; other lists are a pair of their lengths, which no definition has."""
    return set(zip(some, others)) if len(some) == len(others) else {(f"{len(some)} names", f"{len(others)} values")}


# ---- entries as items


def by_entry_type(definitions, word):
    """The pairs of the name of an entry type and a value of a definition: also names of unknown types and aliases."""
    type_names = definitions.names("entry_type_name")
    rows = definitions.rows(word)
    found = {name: definitions.values(value) for name, value in definitions.cases(rows.pop("Unknown")).items()}
    found |= {type_names[kind]: definitions.values(value) for kind, value in rows.items()}
    for alias in definitions.clauses("alias_names")[0][1][1:-1]:
        found[str(alias[1])] = found[type_names[alias[2]]]
    return of_table(found)


def subtypes(page, heading):
    """The pairs of a value of `entrysubtype` and the type for it."""
    kinds, texts = page.part(heading, r"; ([^;|]*) if the field entrysubtype is ([^;|]*)")
    return in_order(quoted(texts), names(kinds))


def types(definitions, page):
    item_names = definitions.names("item_type_name")
    rows = page.table("Types", "entry types | type of the item")
    wanted = {(name, item_names[kind]) for name, kind in by_entry_type(definitions, "item_type_of")}
    yield from same("types", "item_type_of", table_pairs(rows), wanted)
    wanted = {(name, item_names[kind]) for name, kind in of_table(definitions.table("type_of_article")) if name != ANY}
    yield from same("types by entrysubtype", "type_of_article", subtypes(page, "Types"), wanted)
    events = page.part("Types", r"speech if the entry has an (\w+) or a (\w+)")
    yield from same_names("the fields of a speech", "has_event", events, definitions.fields("has_event"))


def described(cell, known):
    """A cell with only the names of `known` among its parts: without the descriptions after them, and the groups of items before them."""
    kept = []
    for part in plain(cell).split("; "):
        before, colon, after = part.partition(":")
        is_named = names(before) and set(names(before)) <= known
        if not part.startswith(("if ", "dropped", "otherwise dropped")):
            kept.append(before if is_named else after if colon else part)
    return "; ".join(kept)


def field_pairs(rows, known):
    """The pairs of a field and a variable or a tag in rows. A cell may say which field becomes which variable, or name the variable of the
    fields in the row above or below."""
    found = set()
    for at, (left, right, *_) in enumerate(rows):
        for place, variable in NEIGHBOUR.findall(right):
            found |= {(it, variable) for it in names(plain(rows[at + (1 if place == "below" else -1)][0]))}
        becomes = re.findall(r"(\w+) becomes ([\w-]+)", described(right, known))
        for field, variable in becomes:
            others = next((some for some in elements(plain(left.replace(", with", ","))) if field in some), [])
            found |= {(it, variable) for it in others}
        keys = re.sub(r"; the keys .*", "", NEIGHBOUR.sub("", right))
        found |= set() if becomes else pairs(left, described(keys, known))
    return found


def keys(rows, field):
    """The pairs of a key of a field and its text: `the keys newseries and oldseries become ..`."""
    cell = next((row[1] for row in rows if field in names(plain(row[0]))), "")
    found = re.search(r"the keys (.*?) become (.*)", cell)
    return in_order(names(found[1]), quoted(found[2])) if found else set()


def fields(definitions, page):
    rows = page.table("Fields", "fields | variable | text")
    people, dates = page.table("People", "fields | variable"), page.table("Dates", "fields | variable")
    wanted = set(definitions.variables())
    found = field_pairs(rows + people + dates, {variable for _, variable in wanted})
    yield from same("fields", "item_fields", found, wanted)
    dropped = [name for row in rows + people if row[1].startswith("dropped") for name in names(plain(row[0]))]
    dropped += names(plain(page.part("Dropped fields", r"no defined meaning: (.*?)\. Fields")[0]))
    for name in sorted({name for name, _ in wanted} & set(dropped)):
        yield f"fields: it drops `{name}`, which `item_fields` has"
    for word, field in (("series_named", "series"), ("status_named", "pubstate")):
        yield from same(f"keys of {field}", word, keys(rows, field), texts_of(definitions, word))
    implied = page.part("Fields", r"; for ([\w, ]*) without this field, the entry type is used")[0]
    kinds = {definitions.names("entry_type_name")[it] for it in definitions.rows("genre_of_type") if it != ANY}
    yield from same_names("entry types with a genre", "genre_of_type", names(implied), kinds)
    archives = page.part("Fields", r"For ([^.]*) the address of the eprint is known")[0]
    yield from same_names("archives", "archive_address", quoted(archives), set(definitions.rows("archive_address")) - {ANY})


def texts_of(definitions, word):
    """The pairs of a definition that has texts for some texts."""
    return of_table({name: definitions.values(value) for name, value in definitions.rows(word).items() if name != ANY})


def genres(definitions, page):
    found = set()
    for left, right in page.table("Fields", "key | genre"):
        found |= in_order(names(left), quoted(right))
    yield from same("genres", "genre_named", found, texts_of(definitions, "genre_named"))


def languages(definitions, page):
    listed = page.part("Fields", r"These names have tags, too: ([^.]*)\.")[0]
    found = {(name, tag) for some, tag in re.findall(r"([\w, ]+) \(([\w-]+)\)", listed) for name in names(some)}
    yield from same("languages", "tag_named", found, texts_of(definitions, "tag_named"))
    name, tag = page.part("Fields", r"\(`Language::tag`\), except that ([\w ]+) is `([\w-]+)`")
    rows = definitions.rows("language_row")
    wanted = {(str(rows[it][1]), tag) for it, tag in texts_of(definitions, "tag_of")}
    yield from same("languages", "tag_of", {(name, tag)}, wanted)


def roles(definitions, page):
    roles, variables = definitions.rows("editor_type_name"), definitions.names("variable_name")
    listed = page.part("People", r"\| ([^|]*) if that is the role, otherwise (\w+) \|")
    found = {(it, it) for it in names(listed[0])} | {(ANY, listed[1])}
    table = of_table(definitions.table("variable_of_role"))
    wanted = {(role if role == ANY else min(definitions.values(roles[role])), variables[variable]) for role, variable in table}
    yield from same("roles", "variable_of_role", found, wanted)


def commands(definitions, page):
    closing = definitions.table("tag_after")
    wanted = {(f"\\{it}", f"{tag}..{min(closing[it])}") for it, tag in texts_of(definitions, "tag_before")}
    marks = [min(definitions.values(definitions.clauses(word)[0][1].then)) for word in ("mark_opening", "mark_closing")]
    wanted |= {(f"\\{it}", "..".join(marks)) for it in definitions.accepted("quotes_argument")}
    wanted |= {(f"\\{it}", "no tag") for it in definitions.accepted("is_address")}
    found = set()
    for left, right in page.table("Texts", "command | output for its argument"):
        texts = quoted(right) or right.split("; ")[:1]
        found |= set(itertools.product(quoted(left), texts)) if len(texts) == 1 else in_order(quoted(left), texts)
    yield from same("commands", "tag_before", found, wanted)
    wanted = {(f"\\{it}", text) for it, text in texts_of(definitions, "sign_named")}
    wanted |= {(f"\\{it}", "nothing") for it in definitions.accepted("is_silent")}
    found = set()
    for left, right in page.table("Texts", "command | text"):
        texts = [SIGNS.get(it, it) for it in right.split(", ")]
        found |= set(itertools.product(quoted(left), texts)) if len(texts) == 1 else in_order(quoted(left), texts)
    yield from same("commands for texts", "sign_named", found, wanted)


def titles(definitions, page):
    variables = definitions.names("variable_name")
    listed = page.part("Titles in sentence case", r"These variables change: ([^.]*)\.")[0]
    wanted = [variables[it] for it, value in definitions.rows("is_title_variable").items() if value != "false"]
    yield from same_names("titles in sentence case", "is_title_variable", names(listed), wanted)


# ---- items as entries


def entry_types(definitions, page):
    rows = page.table("Items as entries", "type of the item | entry type")
    wanted = of_table(definitions.table("written_type_name"))
    found, examples, subtyped = set(), [], set()
    for left, right in rows:
        left, _, more = left.partition(", for example ")
        kind, _, texts = right.partition(", with entrysubtype ")
        found |= pairs(left, kind)
        examples += names(more)
        subtyped |= in_order(names(left), quoted(texts)) if texts else set()
    yield from same("types of items", "written_type_name", found, wanted)
    yield from same("entrysubtype", "subtype_of", subtyped, texts_of(definitions, "subtype_of"))
    for name in sorted({name for name, value in wanted if (ANY, value) not in wanted} & set(examples)):
        yield f"types of items: `{name}` is an example of others, but `written_type_name` has it"
    groups = ("is_article", "is_in_book", "is_volume", "counts_issues", "counts_series", "is_of_institution")
    others = {kind for word in groups for kind, value in definitions.rows(word).items() if value == "true"}
    own = definitions.column([".own", ["item_type_row"]])
    as_misc = [text.split()[0] for kind, text in own.items() if text and kind not in others]
    listed = page.part("Items as entries", r"The types ([^.]*) have the fields of misc")[0]
    yield from same_names("types with the fields of misc", "item_type_row", names(listed), as_misc)


def variables(definitions, page):
    found = table_pairs(page.table("Items as entries", "variable | field"))
    wanted = of_table(definitions.table("variable_field")) | texts_of(definitions, "beside_field")
    wanted |= {("language", it) for it in definitions.values(["language_field", "_tag"])}
    yield from same("variables", "variable_field", found, wanted)
    listed = [it for row in page.table("Items as entries", "variable | field") for it in quoted(row[1])]
    yield from same_names("additional fields", "beside_text", listed, ["pubmed"])


# ---- records of RIS


def record_types(definitions, page):
    rows = page.table("Entries as records of RIS", "entry types | type of the record")
    yield from same("types of records", "ris_type", table_pairs(rows), by_entry_type(definitions, "ris_type"))
    wanted = texts_of(definitions, "periodical_type")
    yield from same("types by entrysubtype", "periodical_type", subtypes(page, "Entries as records of RIS"), wanted)


def tags(definitions, page):
    rows = page.table("Entries as records of RIS", "fields | tag")
    # "Titles have their subtitles and additions": the rows don't name these fields
    wanted = {(field, tag) for field, tag in definitions.tags() if not re.search(r"subtitle|titleaddon", field)}
    yield from same("tags", "ris_of", field_pairs(rows, {tag for _, tag in wanted}), wanted)
    yield from same("keys of series", "series_named", keys(rows, "series"), texts_of(definitions, "series_named"))


def item_types(definitions, page):
    rows = page.table("Records of RIS as entries", "type of the record | type of the item")
    yield from same("types of RIS", "type_of_record", table_pairs(rows), of_table(definitions.table("type_of_record")))
    books = page.part("Records of RIS as entries", r"A book is here a record of the type ([^.]*)\.")[0]
    yield from same_names("books", "is_book_itself", names(books), definitions.accepted("is_book_itself"))
    series = page.part("Records of RIS as entries", r"counts the works of a series if the type is ([^.]*)\.")[0]
    yield from same_names("works of a series", "is_in_series", names(series), definitions.accepted("is_in_series"))


def members(definitions, page):
    rows = page.table("Records of RIS as entries", "tag | variable")
    wanted = {(tag, INNER.get(name, name)) for tag, name in of_table(definitions.table("variable_of"))}
    yield from same("tags of RIS", "variable_of", table_pairs(rows), wanted)
    issues = page.part("Records of RIS as entries", r"\| IS \| issue for ([^;]*);")[0]
    yield from same_names("types with an issue", "has_issues", names(issues), definitions.accepted("has_issues"))


def compare(top):
    """A path and a message for each difference between docs/CSL.md and the definitions."""
    definitions, page = Definitions(top), Page(top / "docs" / "CSL.md")
    of_items = (types, fields, genres, languages, roles, commands, titles, entry_types, variables)
    for table in (*of_items, record_types, tags, item_types, members):
        try:
            yield from ((page.file, why) for why in table(definitions, page))
        except Unreadable as it:
            yield it.args
