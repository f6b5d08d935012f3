"""The list of reasons why a program reads the output of a command of `bibkit` in another way than the file."""
import re
from typing import Callable, NamedTuple

from changes import DATE_PARTS, REFERENCES, Command, Difference
from peers import Reading

# A fault is one of bibkit, a rule follows from what a command is for, and a peer does it by itself. A fault that is repaired is
# taken out of the list, so if it comes back it has no reason.
FAULT, RULE, PEER = "fault", "rule", "peer"


class Case(NamedTuple):
    """A difference, with where it was found: `source` has the entries of the file by their keys in lower case."""
    command: Command
    program: str
    difference: Difference
    before: Reading
    after: Reading
    source: dict
    text: str

    def field(self, key, name):
        """The text of a field of the file, or None if the entry has no such field."""
        entry = self.source.get(key.lower())
        return dict(entry.fields).get(name) if entry else None

    def parents(self, key, depth=9):
        """The keys that an entry refers to, and those that these refer to, as the source or the program reads them."""
        read = [dict(it.fields) for it in self.before.entries if it.key == key]
        named = [it.get(name, "") for it in read for name in ("crossref", "xdata")] if read else []
        named += [self.field(key, "crossref") or "", self.field(key, "xdata") or ""]
        for parent in dict.fromkeys(re.findall(r"[^,\s\x01]+", ",".join(named).lower())):
            yield parent
            if depth:
                yield from self.parents(parent, depth - 1)


class Reason(NamedTuple):
    """A reason holds for differences of some commands and programs, if its test does."""
    origin: str
    text: str
    commands: str
    programs: str
    kinds: str
    test: Callable = lambda case: True


def is_child(case):
    """Whether the entry refers to another one."""
    return any(True for _ in case.parents(case.difference.key))


def is_in_chain(case):
    """Whether the entry is in a chain of three references, or a message is about a file with one."""
    keys = [case.difference.key] if case.difference.key else list(case.source)
    return any(len(list(case.parents(key))) > 1 for key in keys)


def from_parent(case, text):
    """Whether a parent of the entry has a field with a text, which BibTeX expands."""
    parents = {it.lower() for it in case.parents(case.difference.key)}
    return any(text == other for it in case.before.entries if it.key.lower() in parents for _, other in it.fields)


def is_inherited(case):
    """Whether what came is in a field of a parent, and what went is too and isn't in the entry itself."""
    kind, key, name, before, after = case.difference
    is_own = (case.field(key, name) or "") != ""
    is_gone = kind == "field new" or not is_own and from_parent(case, before)
    is_new = kind == "field lost" or name in DATE_PARTS or from_parent(case, after)
    return is_child(case) and is_gone and is_new


def has_both_names(case):
    """Whether a parent has the field both by the name that BibTeX has for it and by that of BibLaTeX."""
    olds = {"location": "address", "institution": "school", "journaltitle": "journal", "annotation": "annote"}
    names = {case.difference.name, olds.get(case.difference.name)}
    return any(all(name and case.field(it, name) is not None for name in names) for it in case.parents(case.difference.key))


def same_key(case):
    """Whether the file has the key of the command in another case."""
    key = case.command.key
    return any(it.key.lower() == key.lower() and it.key != key for it in case.source.values())


def is_about_no_definition(case):
    """Whether a message is about a name that the file doesn't define, in any case."""
    named = re.search(r'string name \\*"([^"\\]+)', case.difference.after)
    names = [it.lower() for it in re.findall(r"@\s*string\s*[{(]\s*([^\s=]+)\s*=", case.text, re.I)]
    return named is not None and named[1].lower() not in names


def letters(text):
    """The letters of a print without commands and braces, in lower case."""
    return re.sub(r"\\em\b|\\newblock|[{}\\\s.~]", "", text).lower()


def is_beyond_ascii(case):
    """Whether a key isn't in ASCII."""
    return not case.difference.key.isascii()


def has_equals_sign(case):
    """Whether a key of the file contains an equals sign, which bibtool reads in no key."""
    return any("=" in it.key for it in case.source.values())


def is_emptied(case):
    """Whether the command removes all fields of its entry."""
    entry = case.source.get(case.command.key.lower())
    return entry is not None and {name for name, _ in entry.fields} <= set(case.command.words)


def refers_by_abbreviation(case):
    """Whether the file has a reference by an abbreviation."""
    return any("\x01" in text for it in case.source.values() for name, text in it.fields if name in REFERENCES)


def has_only_other_case(case):
    """Whether a print differs in case, in italics or in nothing else."""
    return letters(case.difference.before) == letters(case.difference.after)


def is_longer(case):
    """Whether more is printed than before."""
    return len(case.difference.after) > len(case.difference.before)


SORTS = "sort-.*"
REASONS = [
    Reason(RULE, "an edit, a layout or a conversion is refused for a file with an error", ".*", "bibkit", "refused",
           lambda it: re.search(r"status [12]$", it.difference.before) and re.search("unknown abbreviation|expected|unexpected", it.difference.after)),
    Reason(RULE, "sorting puts an entry before the one that it refers to, and BibTeX then doesn't inherit from the parent of that one", SORTS, "bibtex",
           ".*", is_in_chain),
    Reason(PEER, "bibtool cuts keys that aren't in ASCII, so several are the same", SORTS, "bibtool", "field changed|type", is_beyond_ascii),
    Reason(RULE, "resolve writes what BibLaTeX inherits, and BibTeX inherits each field by its own name", "resolve", "bibtex", "field .*", is_inherited),
    Reason(PEER, "Biber inherits the field by BibLaTeX's name, if the parent has it by both names", "resolve", "biber", "field changed", has_both_names),
    Reason(RULE, "resolve takes references away, so BibTeX has nothing to say of them", "resolve", "bibtex", "message gone",
           lambda it: "which also refers" in it.difference.before),
    Reason(RULE, "an entry inherits an abbreviation that the file doesn't define", "resolve", "bibtex", "message new", is_about_no_definition),
    Reason(RULE, "BibTeX prints another case or italics for another type", "there-and-back", "bibtex", "print", has_only_other_case),
    Reason(RULE, "BibTeX reads by its new name what it passed over", "to-bibtex|there-and-back", "bibtex", "print", is_longer),
    Reason(FAULT, "a child has the endyear of its parent beside a date of its own", "to-bibtex", "bibtex", "field changed",
           lambda it: it.difference.name == "date" and is_child(it)),
    Reason(RULE, "a child doesn't inherit the field type of a thesis, which chose the type of the thesis", "to-bibtex", "bibtex", "field lost",
           lambda it: it.difference.name == "type" and is_child(it)),
    Reason(FAULT, "the type of a thesis or report stays a key of BibLaTeX, which BibTeX prints", "to-bibtex", "bibtool", "kind printed"),
    Reason(RULE, "a new key that an entry has in another case is refused", "(add|rename)-case", "bibkit", "refused",
           lambda it: same_key(it) and "an entry has the name already" in it.difference.after),
    Reason(RULE, "a new key that bibtool can't read is refused", "rename-case", "bibkit", "refused",
           lambda it: "a new key isn't empty" in it.difference.after and "=" in it.command.key),
    Reason(PEER, "bibtool can't read the old key, and reads the new one", "rename", "bibtool", "entry new", has_equals_sign),
    Reason(RULE, "a definition of an abbreviation that the file has with another text is refused", "add-string", "bibkit", "refused",
           lambda it: "an abbreviation is defined already" in it.difference.after),
    Reason(FAULT, "rename leaves a reference by an abbreviation", "rename", ".*", ".*", refers_by_abbreviation),
    Reason(RULE, "unset is refused if the entry would have no field left", "(walk-)?unset.*", "bibkit", "refused",
           lambda it: is_emptied(it) and "no field left" in it.difference.after),
    Reason(RULE, "an edit is refused beside a text in quotes whose braces don't balance", ".*", "bibkit", "refused",
           lambda it: "braces of this text in quotes" in it.difference.after),
    Reason(FAULT, "an abbreviation with a number isn't shorter than its text", "collect", "bytes", "long name",
           lambda it: it.difference.name[-1].isdigit()),
    Reason(RULE, "a comment after the field goes with it", "unset.*|resolve", "bytes", "comment lost"),
]


def reason(case):
    """The reason of a difference, or none."""
    for it in REASONS:
        words = (it.commands, case.command.name), (it.programs, case.program), (it.kinds, case.difference.kind)
        if all(re.fullmatch(pattern, word) for pattern, word in words) and it.test(case):
            return f"{it.origin}: {it.text}"
    return None


def texts():
    """The reasons as they are printed."""
    return list(dict.fromkeys(f"{it.origin}: {it.text}" for it in REASONS))
