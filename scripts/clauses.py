"""Reads tables from the definitions of specs/: what a definition has for each text or constructor that it is defined for, and which
fields of an entry it reads.

The text of a clause is read as an expression. A clause of another form than those that `cases` and `values` know is an error
(`Unreadable`), and so is a definition that is missing.
"""
import itertools
import re
from collections import namedtuple

CRATES = ("bib_tables", "bib_csl", "bib_from_csl", "bib_ris", "bib_from_ris")
SIGNATURE = re.compile(r"(?:(?:abbrev|unfoldable|pub) )+([\w']+) :")
TOKEN = re.compile(r'"((?:[^"\\]|\\.)*)"|([()])|([^\s()"]+)')
INFIX = ("++", "∷", "&&", "||", "==", "+", "-", ",")
# calls that have their first argument, or their second one if the first is empty
FIRST_OF = ("first_name", "either", "unwrap_or", "option_or", "first_or")
# variables with the content of their field in the table of variables
BY_ROW = ("given_plain", "given_title", "given_rich", "given_rich_or", "given_listed", "given_people_in")
# the key for all other texts and constructors
ANY = "any other"
# a field of records and not of BibLaTeX
KEY = "the key"

Choice = namedtuple("Choice", "test then other")


class Unreadable(Exception):
    """A file, and why a definition or a table in it can't be compared."""


class Text(str):
    """A literal text of a definition. Other strings in an expression are names."""


def nested(text):
    """The names and literal texts of an expression, with a list for each pair of parentheses."""
    stack = [[]]
    for found in TOKEN.finditer(text):
        if found[2] == "(":
            stack.append([])
        elif found[2] == ")":
            inner = stack.pop()
            stack[-1].append(inner)
        else:
            stack[-1].append(found[3] or Text(re.sub(r"\\(.)", r"\1", found[1])))
    return stack[0]


def replaced(words, values):
    """The words of an expression with the values of these names."""
    if isinstance(words, list):
        return [replaced(it, values) for it in words]
    return words if isinstance(words, Text) else values.get(words, words)


def with_fields(words):
    """The words of an expression with one list for each access to a field, such as `.name` and the expression before it."""
    found = []
    for it in words:
        if type(it) is str and re.match(r"\.[a-z]", it) and found and isinstance(found[-1], list):
            found.append([it, found.pop()])
        else:
            found.append(it)
    return found


def tree(words):
    """The expression of these words: a name, a literal text, a choice, or a list of a function or an operator and its arguments. A list
    with several operators has `++` for all of them."""
    if not isinstance(words, list):
        return words
    words = with_fields(words)
    if words[:1] == ["let"]:
        at = words.index("in")
        return tree(replaced(words[at + 1 :], {words[1]: words[3:at]}))
    if words[:1] == ["if"]:
        then, other = words.index("then"), words.index("else")
        return Choice(tree(words[1:then]), tree(words[then + 1 : other]), tree(words[other + 1 :]))
    operators, parts = set(), [[]]
    for it in words:
        if type(it) is str and it in INFIX:
            operators.add(it)
            parts.append([])
        else:
            parts[-1].append(it)
    if operators:
        return [min(operators) if len(operators) == 1 else "++", *(tree(it) for it in parts)]
    if len(words) == 2 and words[0] in ("codes", "encode_utf8_all") and isinstance(tree(words[1]), Text):
        return tree(words[1])
    return tree(words[0]) if len(words) == 1 else [tree(it) for it in words]


def constructor(pattern):
    """The constructor of a pattern or of an expression, without the module before it, if it is one."""
    head = pattern[0] if isinstance(pattern, list) else pattern
    last = head.rpartition(".")[2] if type(head) is str else ""
    return last if last[:1].isupper() else None


def lowercase_names(patterns):
    """The names that patterns bind."""
    for it in patterns:
        if isinstance(it, list):
            yield from lowercase_names(it)
        elif re.match("[a-z]", it):
            yield it


class Definitions:
    """The definitions of the specs/ of CRATES, by their names. The names that a clause binds are written with an underscore before them,
    except `entry`, so that they can't be taken for definitions."""

    def __init__(self, top):
        self.top, self.found, self.parsed, self.word = top, {}, {}, None
        for file in itertools.chain(*(sorted(top.glob(f"crates/{it}/specs/*.antt")) for it in CRATES)):
            for block in file.read_text().split("\n\n"):
                lines = [it for it in block.splitlines() if not it.startswith("--")]
                signature = SIGNATURE.match(lines[0]) if lines else None
                if signature:
                    self.found[signature[1]] = (file, lines)

    def unknown(self, expression):
        file = self.found[self.word][0]
        return Unreadable(file, f"`{self.word}` has a form that tables.py doesn't know: {expression}")

    def clauses(self, word):
        """The patterns and the expression of each clause of a definition."""
        if word not in self.found:
            raise Unreadable(self.top / "crates", f"no definition is called `{word}`, which docs/CSL.md describes")
        self.word, texts = word, []
        if word in self.parsed:
            return self.parsed[word]
        for line in self.found[word][1][1:]:
            if re.match(rf"{re.escape(word)} ", line):
                texts.append(line)
            elif texts:
                texts[-1] += "\n" + line
        found = []
        for text in texts:
            words = nested(text)
            at = words.index("=")
            bound = {it: f"_{it}" for it in lowercase_names(words[1:at]) if it != "entry"}
            found.append((words[1:at], tree(replaced(words[at + 1 :], bound))))
        self.parsed[word] = found
        return found

    def tested(self, test):
        """The texts for which a test is true."""
        head, *rest = test if isinstance(test, list) else [test]
        if head in ("bytes_eq", "str_eq_ignore_ascii_case") and isinstance(rest[-1], Text):
            return [str(rest[-1])]
        if head == "is_among_words" and isinstance(rest[0], Text):
            return rest[0].split()
        if head == "list_any" and rest[0][:1] == ["bytes_eq"] and rest[1][:1] == ["words"]:
            return rest[1][1].split()
        if head == "||":
            return [text for it in rest for text in self.tested(it)]
        raise self.unknown(test)

    def accepted(self, word):
        """The texts for which the last clause of a definition is true."""
        return self.tested(self.clauses(word)[-1][1])

    def column(self, access):
        """The texts of a field in a table of rows, by constructor, for an access to this field. A row is a call of a definition, whose
        arguments are called as the fields."""
        field, (table, *_) = access
        found = {}
        for patterns, row in self.clauses(table):
            arguments = [it.removeprefix("_") for it in self.clauses(row[0])[0][0]]
            found[constructor(patterns[0])] = row[1 + arguments.index(field[1:])]
        return found

    def is_access(self, it):
        return isinstance(it, list) and type(it[0]) is str and it[0].startswith(".") and isinstance(it[1], list) and it[1][0] in self.found

    def accesses(self, it):
        """The accesses to fields of rows in an expression, and in the definitions that it cites."""
        if self.is_access(it):
            yield it
        elif isinstance(it, list):
            for part in it:
                yield from self.accesses(part)
        elif type(it) is str and it in self.found and len(self.clauses(it)) == 1:
            yield from self.accesses(self.clauses(it)[0][1])

    def pairs(self, word):
        """The name and the value of each row in a list of rows."""
        for row in self.clauses(word)[0][1][1:-1]:
            yield str(row[1]), row[2:]

    def searched(self, it):
        """What a search in a table has for each text, or None for another expression."""
        head = it[0] if isinstance(it, list) and type(it[0]) is str else None
        if head == "find":
            found = {}
            for access in self.accesses(it[1]):
                for case, text in self.column(access).items():
                    for name in text.split():
                        found.setdefault(name, ["Some", case])
            return {**found, ANY: "None"}
        if head == "value_named" and it[1] in self.found:
            return {**{name: ["Some", *values] for name, values in self.pairs(it[1])}, ANY: "None"}
        if head == "text_named" and it[1] in self.found:
            return {**{name: values[0] for name, values in self.pairs(it[1])}, ANY: "[]"}
        if head == "option_map" and it[1][:2] == ["λ", "pair."]:
            at = int(it[1][2].removeprefix("pair."))
            rows = self.cases(it[2])
            return {name: value if value == "None" else ["Some", value[1 + at]] for name, value in rows.items()}
        if head == "option_map_or":
            function = it[1] if isinstance(it[1], list) else [it[1]]
            return {name: it[3] if value == "None" else [*function, value[1]] for name, value in self.cases(it[2]).items()}
        return None

    def cases(self, it):
        """What an expression has for each text or constructor, and under ANY what it has for others."""
        found = self.searched(it)
        if found is not None:
            return found
        if self.is_access(it):
            return {case: Text(text.split()[0]) if text else "[]" for case, text in self.column(it).items()}
        if isinstance(it, Choice) and it.test == ["==", ["length", it.other], "0"]:
            return self.first_of(it.other, it.then)
        if isinstance(it, Choice):
            texts = self.tested(it.test)
            return {**self.cases(it.other), **dict.fromkeys(texts, it.then)}
        if isinstance(it, list) and it[0] in FIRST_OF:
            return self.first_of(*it[1:])
        if isinstance(it, list) and type(it[0]) is str and it[0] in self.found:
            if len(it) == 2 and isinstance(it[1], list):
                return {name: [it[0], value] for name, value in self.cases(it[1]).items()}
            return self.rows(it[0])
        return {ANY: it}

    def first_of(self, first, other):
        rows = {name: value for name, value in self.cases(first).items() if name == ANY or value != "[]"}
        if rows.pop(ANY, "[]") not in ("[]", "None"):
            raise self.unknown(first)
        return {**self.cases(other), **rows}

    def rows(self, word):
        """What a definition has for each text or constructor, and under ANY what it has for others."""
        clauses, rows = self.clauses(word), {}
        if len(clauses) == 1:
            return self.cases(clauses[0][1])
        for patterns, value in clauses:
            rows.setdefault(next(filter(None, map(constructor, patterns)), ANY), value)
        return rows

    def values(self, it):
        """The texts and constructors that an expression can be."""
        if isinstance(it, Text):
            return {str(it)}
        if isinstance(it, Choice):
            return self.values(it.then) | self.values(it.other)
        if it in ("[]", "None"):
            return set()
        if constructor(it) == "Some":
            return self.values(it[1])
        if constructor(it):
            return {constructor(it)}
        if self.is_access(it):
            rows = self.cases(it)
            case = constructor(it[1][1])
            return set().union(*map(self.values, [rows[case]] if case else rows.values()))
        if isinstance(it, list) and it[0] == "first_or":
            return self.values(it[1]) or self.values(it[2])
        if isinstance(it, list) and it[0] in FIRST_OF:
            return self.values(it[1]) | self.values(it[2])
        if isinstance(it, list) and type(it[0]) is str and it[0] in self.found:
            return set().union(*map(self.values, self.results(it)))
        raise self.unknown(it)

    def results(self, call):
        """The expressions that a call can become: that of the clause for its argument, if that is a constructor, otherwise all."""
        arguments = [it[1] if constructor(it) == "Some" else it for it in call[1:]]
        at = next((at for at, it in enumerate(arguments) if constructor(it)), None)
        if at is None:
            return [value for _, value in self.clauses(call[0])]
        for patterns, value in self.clauses(call[0]):
            case = next(filter(None, map(constructor, patterns)), None)
            if case == constructor(arguments[at]):
                return [value]
            if case is None:
                return [replaced(value, {f"_{patterns[at]}": arguments[at]})]
        return ["[]"]

    def table(self, word):
        """The values that a definition can have for each text or constructor, and under ANY those for others."""
        return {name: self.values(value) for name, value in self.rows(word).items()}

    def names(self, word):
        """The table of a definition that has one text for each constructor."""
        return {name: min(values) for name, values in self.table(word).items() if values}

    def reached(self, it, seen):
        """An expression, its parts, and the expressions of the definitions that it cites, without the tests of choices and the names in
        tables."""
        parts = []
        if isinstance(it, Choice):
            parts = [it.then, it.other]
        elif isinstance(it, list) and it[0] == "∷" and it[-1] == "[]":
            parts = [part for row in it[1:-1] for part in row[2:]]
        elif isinstance(it, list):
            yield it
            parts = it
        elif isinstance(it, Text):
            yield it
        elif it in self.found and it not in seen:
            seen.add(it)
            parts = [value for _, value in self.clauses(it)]
        for part in parts:
            yield from self.reached(part, seen)

    def fields(self, it):
        """The fields whose texts an expression reads: the literal texts next to `entry` in a call, and the fields of variables in the table.
        `options` decides only on prefixes."""
        for call in self.reached(it, set()):
            if isinstance(call, list) and "entry" in call:
                yield from (str(name) for name in call if isinstance(name, Text) and name != "options")
                variables = [part[1] for part in call if isinstance(part, list) and part[0] == "field_in_table"]
                yield from (self.names("field_in_table")[constructor(it)] for it in variables if constructor(it))
            elif isinstance(call, list) and "entry.key" in call:
                yield KEY

    def lines(self, it):
        """The parts of a record: the expressions between `++`, also in the definitions for `entry` that an expression cites."""
        if isinstance(it, list) and it[1:] == ["entry"] and it[0] in self.found:
            value = self.clauses(it[0])[0][1]
            it = value if isinstance(value, list) and value[0] == "++" else it
        if isinstance(it, list) and it[0] == "++":
            for part in it[1:]:
                yield from self.lines(part)
        else:
            yield it

    def variables(self):
        """Each field with a variable that contains it, in items."""
        variable_names, plain_fields = self.names("variable_name"), self.names("field_in_table")
        for call in self.reached("item_fields", set()):
            variable = constructor(call[1]) if isinstance(call, list) and len(call) > 2 else None
            if variable and call[0] in ("given", "given_people", "given_date"):
                yield from ((field, variable_names[variable]) for field in self.fields(call[2]))
            elif variable and call[0] in BY_ROW:
                for field in (plain_fields[variable], *(it for it in call[3:] if isinstance(it, Text))):
                    yield str(field), variable_names[variable]

    def tags(self):
        """Each field with a tag that contains it, in records."""
        for line in self.lines(["ris_of", "entry"]):
            tags = {str(it) for it in self.reached(line, set()) if isinstance(it, Text) and re.fullmatch("[A-Z][A-Z0-9]", it)}
            yield from itertools.product(self.fields(line), tags - {"TY"})
