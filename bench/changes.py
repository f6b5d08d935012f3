"""The commands of `bibkit` that write .bib texts, and how what a program read of the new text differs from what it had to read."""
import collections
import re
from typing import Callable, NamedTuple

from peers import MONTHS, NAME, Entry

REFERENCES = {"crossref", "xref", "xdata", "related", "entryset", "set"}
DATE_PARTS = ["date", "year", "month", "day", "endyear", "endmonth", "endday"]
NEW_NAMES = {"journal": "journaltitle", "address": "location", "school": "institution"}
TYPES = {
    "biblatex": {"mastersthesis": "thesis", "phdthesis": "thesis", "techreport": "report", "conference": "inproceedings", "electronic": "online",
                 "www": "online"},
    "bibtex": {"suppperiodical": "article", "mvbook": "book", "bookinbook": "inbook", "suppbook": "inbook", "suppcollection": "incollection",
               "inreference": "incollection", "thesis": "phdthesis", "report": "techreport", "conference": "inproceedings",
               **dict.fromkeys(["collection", "mvcollection", "mvproceedings"], "proceedings"),
               **dict.fromkeys(["periodical", "reference", "mvreference", "patent", "online", "electronic", "www", "software", "dataset", "set",
                                "xdata"], "misc")},
}
# The type of BibTeX that a type of BibLaTeX and a value of `type` stand for, as Biber reads the types of BibTeX.
KINDS = {("thesis", "mathesis"): "mastersthesis", ("thesis", "phdthesis"): "phdthesis", ("report", "techreport"): "techreport"}
# The types and fields of BibTeX's standard styles.
STANDARD_TYPES = set("""article book booklet conference inbook incollection inproceedings manual mastersthesis misc phdthesis proceedings techreport
unpublished""".split())
STANDARD_FIELDS = set("""address author booktitle chapter crossref edition editor howpublished institution journal key month note number organization
pages publisher school series title type volume year""".split())
FOREIGN_FIELDS = {"journaltitle", "location", "date", "crossref", "xdata"}


def unchanged(entries):
    """The entries themselves."""
    return entries


class Command(NamedTuple):
    """A command with its words; FILE stands for the file. A program has to read `wanted` of the entries that it read before."""
    name: str
    words: list
    rule: str = "same"
    wanted: Callable = unchanged
    text: str = ""
    key: str = ""
    then: list = []


class Difference(NamedTuple):
    """One thing that a program read in another way."""
    kind: str
    key: str = ""
    name: str = ""
    before: str = ""
    after: str = ""


def with_user_field(entries):
    """The entries with the same text in the field usera of each."""
    keep = lambda fields: [it for it in fields if it[0] != "usera"]
    return [Entry(it.key, it.entry_type, [*keep(it.fields), ("usera", "An {E}dit")]) for it in entries]


def without_notes(entries):
    """The entries without their notes and pages."""
    return [Entry(it.key, it.entry_type, [field for field in it.fields if field[0] not in ("note", "pages")]) for it in entries]


def without_misc(entries):
    """The entries that aren't of the type misc."""
    return [it for it in entries if it.entry_type.lower() != "misc"]


CONVERT = ["convert", "--to"]
# The commands without a key.
LAYOUTS = [
    Command("fmt", ["fmt", "FILE"]),
    Command("fmt-quotes", ["fmt", "--delimiters", "quotes", "--align", "--blank-lines", "1", "--indent", "4", "FILE"]),
    Command("fmt-braces", ["fmt", "--delimiters", "braces", "--order", "year,title,author", "--no-trailing-comma", "--width", "60", "FILE"]),
    *[Command(f"sort-{it}", ["fmt", "--sort", it, "FILE"], "sorted") for it in ("key", "year", "author", "type")],
    Command("expand", ["strings", "--expand", "-f", "FILE"]),
    Command("collect", ["strings", "--collect", "-f", "FILE"]),
    Command("resolve", ["resolve", "FILE"], "resolved"),
    Command("edit", ["edit", "--set", "usera=An {E}dit", "-f", "FILE"], "edited", with_user_field),
    Command("edit-unset", ["edit", "--unset", "note,pages", "-f", "FILE"], "edited", without_notes),
    Command("remove-where", ["remove", "--where", "type = misc", "-f", "FILE"], "edited", without_misc),
    Command("to-biblatex", [*CONVERT, "biblatex", "FILE"], "biblatex"),
    Command("to-bibtex", [*CONVERT, "bibtex", "FILE"], "bibtex"),
    Command("there-and-back", [*CONVERT, "biblatex", "FILE"], "back", then=[*CONVERT, "bibtex", "FILE"]),
]
EDITS = """add add-case add-string rename rename-case set-new set-old set-twice unset unset-last unset-all remove""".split()
NAMES = [it.name for it in LAYOUTS] + ["rekey"] + EDITS
# Biber takes seconds for a file, so it reads the output of these commands only.
FOR_BIBER = set("fmt-quotes sort-key expand collect resolve to-biblatex to-bibtex edit rekey add rename set-new set-twice".split())


def with_fields(key, change):
    """What is wanted if the fields of one entry change."""
    return lambda entries: [Entry(it.key, it.entry_type, change(it.fields)) if it.key == key else it for it in entries]


def adding(key, title="Added {T}itle", before=""):
    """The command that adds an entry, after some text."""
    added = Entry(key, "misc", [("title", " ".join(title.split())), ("note", "2001")])
    text = f"{before}@misc{{{key}, title = {{{title}}}, note = 2001}}\n"
    return Command("add", ["add", "-f", "FILE"], "edited", lambda entries: [*entries, added], text, key)


def with_keys(keys):
    """What is wanted if entries get new keys, each by its old one. Only BibTeX compares keys in any case, and only in crossref."""
    lower = {old.lower(): new for old, new in keys.items()}
    def put(name, text):
        """The text of a reference with the new keys."""
        new = lambda it: keys.get(it[0]) or name == "crossref" and lower.get(it[0].lower()) or it[0]
        return re.sub(r"[^,\s]+", new, text) if name in REFERENCES else text
    named = lambda it: Entry(keys.get(it.key, it.key), it.entry_type, [(name, put(name, text)) for name, text in it.fields])
    return lambda entries: [named(it) for it in entries]


def renaming(old, new):
    """The command that renames a key."""
    return Command("rename", ["rename", old, new, "-f", "FILE"], "renamed", with_keys({old: new}), key=new)


# The command that prints the keys that `rekey` changes.
KEY_MAP = Command("map", ["rekey", "--map", "-f", "FILE"])


def rekeying(said):
    """The command that gives all entries new keys, which KEY_MAP prints."""
    keys = dict(it.rsplit(",", 1) for it in said.decode("latin-1").splitlines())
    return Command("rekey", ["rekey", "-f", "FILE"], "rekeyed", with_keys(keys))


def setting(key, name, text):
    """The command that sets a field."""
    put = lambda fields: [it for it in fields if it[0] != name.lower()] + [(name.lower(), " ".join(text.split()))]
    return Command("set", ["set", key, f"{name}={text}", "-f", "FILE"], "edited", with_fields(key, put), key=key)


def unsetting(key, names):
    """The command that removes fields."""
    keep = lambda fields: [it for it in fields if it[0] not in names]
    return Command("unset", ["unset", key, *names, "-f", "FILE"], "edited", with_fields(key, keep), key=key)


def removing(key):
    """The command that removes an entry."""
    return Command("remove", ["remove", key, "-f", "FILE"], "edited", lambda entries: [it for it in entries if it.key != key], key=key)


def other_case(key):
    """A key with the case of its letters changed; nothing if it has none."""
    other = "".join(it.swapcase() if it.isascii() else it for it in key)
    return other if other != key else None


def edits(source, references, strings, chance):
    """Commands that edit entries drawn at random. The source has the fields of each entry; some keys are referred to."""
    keys = collections.Counter(it.key.lower() for it in source)
    own = [it for it in source if it.fields and keys[it.key.lower()] == 1]
    found = {"add": adding("zzadded")}
    if strings:
        name = chance.choice(strings)
        found["add-string"] = adding("zzadded", before=f"@string{{{name} = {{Another text}}}}\n")
    referred = [it for it in own if it.key.lower() in references]
    free = [it for it in own if it.key.lower() not in references and not REFERENCES & {name for name, _ in it.fields}]
    if referred or free:
        found["rename"] = renaming(chance.choice(referred or free).key, "zzkey")
    if cased := [it.key for it in own if other_case(it.key)]:
        key = chance.choice(cased)
        found["add-case"] = adding(other_case(key))
        if others := [it.key for it in free if it.key != key]:
            found["rename-case"] = renaming(chance.choice(others), other_case(key))
    if free:
        found |= field_edits(free, chance)
    return [found[name]._replace(name=name) for name in EDITS if name in found]


def field_edits(free, chance):
    """Commands that edit an entry that neither refers to another one nor is referred to. Biber makes one date of several fields, so none of
    these is set where it is there twice."""
    key, _, fields = chance.choice(free)
    names = [name for name, _ in fields]
    name = next(it for it in ("usera", "userb", "userc", "verba") if it not in names)
    counted = [(it.key, collections.Counter(name for name, _ in it.fields if name not in DATE_PARTS)) for it in free]
    doubled = [(key, name) for key, counts in counted for name, count in counts.items() if count > 1]
    found = {"set-new": setting(key, name, "A {N}ew one"), "set-old": setting(key, chance.choice(names), "Changed {V}alue"),
             "unset": unsetting(key, [chance.choice(names)]), "unset-last": unsetting(key, [names[-1]]),
             "unset-all": unsetting(key, sorted(set(names))), "remove": removing(key)}
    if doubled:
        found["set-twice"] = setting(*chance.choice(doubled), "Changed {V}alue")
    return found


# Comparing.

def numbered(entries):
    """Entries by their keys, each with how often its key came before."""
    found, seen = {}, collections.Counter()
    for it in entries:
        found[it.key, seen[it.key]] = it
        seen[it.key] += 1
    return found


def field_differences(key, before, after):
    """The fields in which an entry differs from the one that is wanted."""
    wanted, read = collections.Counter(before), collections.Counter(after)
    lost, new = dict(wanted - read), dict(read - wanted)
    others = {name: text for name, text in new}
    for name, text in lost:
        yield Difference("field changed" if name in others else "field lost", key, name, text, others.get(name, ""))
    for name, text in new:
        if name not in {it for it, _ in lost}:
            yield Difference("field new", key, name, "", text)


def entry_differences(wanted, read, is_ordered=False):
    """The entries and fields in which a reading differs from the one that is wanted."""
    one, other = numbered(wanted), numbered(read)
    found = [Difference("entry lost", key) for key, number in one if (key, number) not in other]
    found += [Difference("entry new", key) for key, number in other if (key, number) not in one]
    for place, entry in one.items():
        if again := other.get(place):
            if entry.entry_type != again.entry_type:
                found.append(Difference("type", entry.key, "", entry.entry_type, again.entry_type))
            found += field_differences(entry.key, entry.fields, again.fields)
    if is_ordered and not found and [it.key for it in wanted] != [it.key for it in read]:
        found.append(Difference("order"))
    return found


def message_differences(before, after):
    """The messages that came or went."""
    one, other = collections.Counter(before), collections.Counter(after)
    gone = [Difference("message gone", before=it) for it in (one - other).elements()]
    return gone + [Difference("message new", after=it) for it in (other - one).elements()]


def is_grave(message):
    """Whether a message is about more than a field that is missing."""
    return "undefined" in message or not message.startswith(("Warning--", "WARN - legacy month field"))


def printed_differences(before, after, keys):
    """What the style plain prints in another way for some keys."""
    return [Difference("print", key, "", before[key], after.get(key, "")) for key in sorted(keys & set(before)) if before[key] != after.get(key)]


def month_number(text):
    """The number of a month, if the text is a month."""
    word = text.strip(NAME).lower()
    names = [it.lower() for it in MONTHS]
    for words in (names, [it[:3] for it in names]):
        if word in words:
            return words.index(word) + 1
    return int(word) if re.fullmatch(r"\d{1,2}", word) else text


def date_of(fields):
    """A date as a text, from one field or several."""
    date = re.fullmatch(r"(-?\d{4})(?:-(\d\d))?(?:-(\d\d))?(/)?(?:(-?\d{4})(?:-(\d\d))?(?:-(\d\d))?)?", fields.get("date", ""))
    if "date" in fields and not date:
        return " ".join(fields.get(name, "") for name in DATE_PARTS)
    if date:
        parts = [date[number] for number in (1, 2, 3, 5, 6, 7)]
    else:
        parts = [fields.get(end + part) for end in ("", "end") for part in ("year", "month", "day")]
    parts = [it if it is None else month_number(it) if number % 3 == 1 else int(it) if re.fullmatch(r"-?\d+", it) else it
             for number, it in enumerate(parts)]
    return " ".join("-" if it is None else str(it) for it in parts)


def canonical(entry, dialect):
    """An entry with the names that both dialects of it have in common, and with one date. The type of a thesis or a report stands for
    its kind, if the entry says nothing else of it."""
    known = {}
    for name, text in entry.fields:
        known.setdefault(name, text)
    kind = KINDS.get((TYPES["biblatex"].get(entry.entry_type, entry.entry_type), known.get("type")))
    if kind is None and "type" not in known and entry.entry_type in KINDS.values():
        kind = entry.entry_type
    left_out = {*DATE_PARTS, "type"} if kind else set(DATE_PARTS)
    fields = [(NEW_NAMES.get(name, name), text) for name, text in entry.fields if name not in left_out]
    return Entry(entry.key, kind or TYPES[dialect].get(entry.entry_type, entry.entry_type), [*fields, ("date", date_of(known))])


def plain_keys(source):
    """The keys of entries that have a type, and fields, of BibTeX alone."""
    return {it.key for it in source if it.entry_type in STANDARD_TYPES and not FOREIGN_FIELDS & {name for name, _ in it.fields}}


def is_new_about(difference, keys):
    """Whether a difference is a new message about an entry with one of these keys."""
    return difference.kind == "message new" and any(it in keys for it in re.findall(r" (?:in|for) (\S+)", difference.after))


def keys_printed(after):
    """The keys of BibLaTeX for a kind of thesis or report that are left as a text, which BibTeX prints."""
    kinds = {"mathesis", "phdthesis", "candthesis", "techreport", "resreport", "bathesis"}
    return [Difference("kind printed", it.key, name, "", text) for it in after for name, text in it.fields
            if name == "type" and text in kinds and it.entry_type in STANDARD_TYPES]


def unread_fields(source, after, said):
    """The new fields that no style of BibTeX reads, and that no message of the conversion names, by itself or as parts of a date."""
    old = {(it.key, name) for it in source for name, _ in it.fields}
    for entry in after:
        for name, text in entry.fields:
            is_named = re.search("note: `date` becomes" if name in DATE_PARTS else rf"note: .*`{re.escape(name)}`", said, re.I)
            if name not in STANDARD_FIELDS and (entry.key, name) not in old and not is_named:
                yield Difference("unread field", entry.key, name, "", text)


def differences(command, program, before, after, source, said):
    """How a reading differs from the one that a command has to leave."""
    rule, wanted, is_ordered = command.rule, command.wanted(before.entries), command.rule != "sorted" and program != "biber"
    if rule in ("biblatex", "bibtex"):
        one, other = ([canonical(it, rule) for it in reading.entries] for reading in (before, after))
        found = entry_differences(one, other, is_ordered)
        if rule == "bibtex" and program == "bibtool":
            found += [*unread_fields(source, after.entries, said), *keys_printed(after.entries)]
        if rule == "bibtex":
            found += printed_differences(before.printed, after.printed, plain_keys(source))
        return found + message_differences(filter(is_grave, before.all_messages), filter(is_grave, after.all_messages))
    if rule == "back":
        found = printed_differences(before.printed, after.printed, plain_keys(source))
        return found + [it for it in message_differences(before.messages, after.messages) if is_new_about(it, plain_keys(source))]
    if rule == "resolved":
        found = [it for it in entry_differences(wanted, after.entries, is_ordered) if it.kind != "field lost" or it.name not in ("crossref", "xdata")]
        return found + message_differences(filter(is_grave, before.all_messages), filter(is_grave, after.all_messages))
    found = entry_differences(wanted, after.entries, is_ordered)
    if before.preamble != after.preamble:
        found.append(Difference("preamble", "", "", before.preamble, after.preamble))
    if rule == "rekeyed":
        return found
    if rule in ("same", "sorted"):
        found += printed_differences(before.printed, after.printed, set(before.printed))
        return found + message_differences(before.messages, after.messages)
    return found + edit_differences(command, before, after)


def reprinted(command, before):
    """The keys of the entries whose fields an edit changes, so that their print may change."""
    wanted = numbered(command.wanted(before.entries))
    return {key for (key, number), entry in numbered(before.entries).items() if wanted.get((key, number), entry).fields != entry.fields}


def edit_differences(command, before, after):
    """What an edit changed in the messages, and in the prints of all entries except those whose fields it changes."""
    old, new = command.words[1:3] if command.rule == "renamed" else ("", "")
    message = lambda it: re.sub(rf"([\"']){re.escape(old)}\1", lambda found: found[1] + new + found[1], it) if old else it
    printed = {new if key == old else key: it.replace(f"{{{old}}}", f"{{{new}}}") if old else it for key, it in before.printed.items()}
    found = message_differences([message(it) for it in before.messages if is_grave(it)], [it for it in after.messages if is_grave(it)])
    changed = {command.key.lower(), *(it.lower() for it in (reprinted(command, before) if command.rule == "edited" else []))}
    others = {key for key in set(printed) & set(after.printed) if key.lower() not in changed}
    return [it for it in found if it.kind == "message new"] + printed_differences(printed, after.printed, others)
