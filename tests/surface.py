"""Compares the public surface of the crate `biblatex` with tests/surface.txt.

`compare(top)` yields a path and a message for each public name, getter, impl and printed text of surface.txt that the sources
lack or have otherwise, and for each public name of the sources that neither surface.txt nor docs/DIFFERENCES.md has. Of a
call it compares the name, of a getter also the types: of other calls the compiler checks the types, in the tests that call them.
"""
import re

WORD = r"[A-Za-z_]\w*"


def sections(text):
    """The lines of each section of surface.txt, without comments."""
    found, name = {}, None
    for line in text.splitlines():
        heading = re.fullmatch(r"\[(\w+)\]", line)
        if heading:
            name = heading[1]
            found[name] = []
        elif name and line and not line.startswith("#"):
            found[name].append(line)
    return found


def wanted_names(lines):
    """The members of each type, trait and function, by its name."""
    members = {}
    for line in lines:
        head, _, rest = line.partition(":")
        members.setdefault(head.split()[1], set()).update(rest.split())
    return members


def exported(text):
    """The names that a library's root makes public, each by the name that it has in its own module."""
    names = {}
    for path in re.findall(r"(?s)\bpub use ([^;]+);", text):
        inner = re.search(r"\{(.*)\}", path, re.S)
        for name in (inner[1] if inner else path.rpartition("::")[2]).split(","):
            own, _, other = name.strip().partition(" as ")
            if own:
                names[other or own] = own
    return names


def block(text, start):
    """The text between the brace that opens after a place and the one that closes it."""
    depth, begin = 0, text.index("{", start)
    for place in range(begin, len(text)):
        depth += {"{": 1, "}": -1}.get(text[place], 0)
        if not depth:
            return text[begin + 1:place]
    return ""


def plain(text):
    """A file's text without comments, texts in quotes, ghost items and clauses."""
    text = re.sub(r"'(?:\\.|[^'\\])'|//[^\n]*|\"(?:\\.|[^\"\\])*\"", "", text)
    lines, kept, depth = text.splitlines(keepends=True), [], 0
    for line in lines:
        if depth or re.match(r" *(?:ghost|ensures\*?|requires)\b", line):
            depth += len(re.findall(r"[{(]", line)) - len(re.findall(r"[})]", line))
        else:
            kept.append(line)
    return "".join(kept)


def variants(body):
    """The variants of an enum's body, and the named fields that they have."""
    found, depth, word = set(), 0, ""
    for piece in re.findall(r"#\[[^\]]*\]|[{}()<>,]|[^{}()<>,#]+|#", body):
        if piece in "{(<":
            depth += 1
        elif piece in "})>":
            depth -= 1
        elif depth == 0 and re.search(rf"{WORD}\s*$", piece):
            found.add(re.search(rf"({WORD})\s*$", piece)[1])
        elif depth == 1 and re.search(rf"({WORD})\s*:", piece):
            found.add("." + re.search(rf"({WORD})\s*:", piece)[1])
    return found


def members(name, files):
    """What is public of a type, a trait or a function of this name, or None where no file has it."""
    found = None
    for text in files:
        head = re.search(rf"\bpub (?:struct|enum|trait|type|fn) {name}\b", text)
        if head:
            found = found or set()
            kind = head[0].split()[1]
            if kind == "struct" and "{" in text[head.end():].split(";")[0]:
                found |= {f".{it}" for it in re.findall(rf"\bpub ({WORD})\s*:", block(text, head.end()))}
            elif kind == "enum":
                found |= variants(block(text, head.end()))
            elif kind == "trait":
                found |= set(re.findall(rf"\bfn ({WORD})", block(text, head.end())))
    if found is None:
        return None
    for text in files:
        for head in re.finditer(rf"(?m)^impl(?:<[^>]*>)? {name}\b(?:<[^{{]*>)? \{{", text):
            found |= set(re.findall(rf"(?m)^    pub (?:const )?fn ({WORD})", block(text, head.start())))
    return found


def normal(text):
    """A format's text with each part as `{}`, or `{:?}` in quotes."""
    return re.sub(r"\{([^{}:]*)(:\?)?\}", lambda found: "{:?}" if found[2] else "{}", text)


def printed(name, variant, files):
    """The texts that the sources print of a variant, or of a type without variants."""
    found = set()
    for text in files:
        if variant is None:
            head = re.search(rf"(?m)^impl fmt::Display for {name} \{{", text)
            if head:
                said = re.findall(r"(?:write_str\(|write!\(f, )\"((?:\\.|[^\"\\])*)\"", block(text, head.start()))
                found |= {normal(it) for it in said}
            continue
        for owner in re.finditer(rf"(?ms)^(?:impl\b[^{{]*\b{name}\b[^{{]*|pub enum {name} |static \w+: \[Row; \d+\] = |macro_rules! (?:with_named_types|name_of) )[\[{{]", text):
            if owner[0].startswith("macro") and name != "EntryType" or owner[0].startswith("static") and name != "Language":
                continue
            body = text[owner.end():text.find("\n}" if not owner[0].startswith("static") else "\n];", owner.end())]
            for pattern in (rf"(?:\b(?:{name}::|Self::)|^ +){variant}(?:\([^)]*\))? => (?:\{{\s*)?(?:f\.write_str\(|write!\(f, )?\"((?:\\.|[^\"\\])*)\"",
                            rf"#\[error\(\"((?:\\.|[^\"\\])*)\"\)\]\s*{variant}\b",
                            rf"\(\s*{name}::{variant},\s*\"([^\"]*)\""):
                found |= {normal(it) for it in re.findall(pattern, body, re.M)}
    return found


def check_names(lines, getters, root, sources, differences):
    """Each wanted name is exported with its members, and each other public name is in the differences."""
    wanted, names = wanted_names(lines), exported(root)
    methods = {it for line in getters for it in (line.split()[0], f"set_{line.split()[0]}")}
    if "Entry" in wanted:
        wanted["Entry"] |= methods
    for name, parts in wanted.items():
        if name not in names:
            yield f"`{name}` is not exported"
            continue
        has = members(names[name], sources)
        if has is None:
            yield f"`{name}` is defined nowhere"
            continue
        yield from (f"`{name}` has no `{part.lstrip('.')}`" for part in sorted(parts - has))
    for name, own in names.items():
        has = members(own, sources) or set()
        if name not in wanted and f"`{name}" not in differences:
            yield f"`{name}` is public, and neither surface.txt nor docs/DIFFERENCES.md names it"
        for part in sorted(has - wanted.get(name, set())):
            if not re.search(rf"`(?:{name}(?:<\w+>)?(?:::|\.))?{part.lstrip('.')}(?:\([^`]*\))?`", differences):
                yield f"`{name}::{part.lstrip('.')}` is public, and neither surface.txt nor docs/DIFFERENCES.md names it"


def check_root(lines, root):
    """The root has these public items of its own, and else it only exports those of other modules."""
    has = set(re.findall(rf"(?m)^ *pub ((?!use\b)\w+ {WORD})", root))
    yield from (f"the root of `biblatex` has no `pub {it}`" for it in sorted(set(lines) - has))
    yield from (f"the root of `biblatex` has `pub {it}`, which surface.txt doesn't name" for it in sorted(has - set(lines)))


def check_getters(lines, entry):
    """Each getter reads its field, or its alias if that is missing, as its type. Its setter writes the field."""
    for line in lines:
        getter, field, alias, type_name = line.split(" ", 3)
        head = re.search(rf"(?m)^    pub fn {getter}\((.*?)^    }}", entry, re.S)
        setter = re.search(rf"(?m)^    pub fn set_{getter}\((.*?)^    }}", entry, re.S)
        for word, found in ((getter, head), (f"set_{getter}", setter)):
            if not found:
                yield f"`Entry::{word}` is missing"
        if not head or not setter:
            continue
        is_date = type_name == "PermissiveType<Date>"
        prefix = field[:-len("date")] if is_date else field
        for word, found in ((getter, head), (f"set_{getter}", setter)):
            quoted = [it for it in re.findall(r"codes \"([^\"]*)\"", found[1]) if it]
            other = [alias] if alias != "-" and word == getter else []
            if quoted != [it for it in [prefix, *other] if it]:
                yield f"`Entry::{word}` is about the fields {quoted}, and not `{field}`" + (f" and then `{alias}`" if other else "")
        result = re.search(r"-> Result<([^{]*?), RetrievalError>", head[1])
        said = " ".join(result[1].split()) if result else ""
        if said != ("ChunksRef<'_>" if type_name == "Chunks" else type_name):
            yield f"`Entry::{getter}` returns `{said}`, and not `{type_name}`"
        value = re.search(r"&mut self,\s*\w+: ([^)]*?),?\s*\)", setter[0])
        if not value or value[1] != (type_name if type_name == "Chunks" else f"&{type_name}"):
            yield f"`Entry::set_{getter}` takes `{value and value[1]}`, and not `{type_name}`"


def check_texts(lines, sources):
    """Each text is the one that the sources print."""
    for line in lines:
        head, _, text = line.partition(": ")
        name, _, variant = head.partition("::")
        said = printed(name, variant or None, sources)
        if said != {text}:
            yield f"`{head}` prints {sorted(said)}, and not {text!r}"


def check_impls(lines, sources):
    """Each type has these impls, written out or derived."""
    for line in lines:
        name, _, traits = line.partition(": ")
        has = set()
        for text in sources:
            for found in re.finditer(rf"(?m)^impl(?:<[^>]*>)? (?:\w+::)*(\w+)(?:<(.*?)>)? for &?(?:'\w+ )?(?:mut )?{re.escape(name)}(?!\w)", text):
                has.add(f"{found[1]}<{found[2]}>" if found[1] == "From" else found[1])
            derived = re.search(rf"((?:#\[[^\]]*\]\s*)*)pub (?:struct|enum) {re.escape(name)}(?!\w)", text)
            if derived:
                has |= set(re.findall(r"\w+", " ".join(re.findall(r"derive\(([^)]*)\)", derived[1]))))
                has |= {"non_exhaustive"} & set(re.findall(r"\w+", derived[1]))
        yield from (f"`{name}` has no impl of `{it}`" for it in traits.split() if it not in has)


def compare(top):
    """A path and a message for each difference."""
    path = top / "tests" / "surface.txt"
    lists = sections(path.read_text())
    root = (top / "crates" / "biblatex" / "src" / "lib.rt").read_text()
    differences = (top / "docs" / "DIFFERENCES.md").read_text()
    row = re.search(r"(?m)^biblatex:(.*)$", (top / "crates.txt").read_text())
    crates = ["biblatex", *row[1].split()]
    files = {it: it.read_text() for crate in crates for it in sorted((top / "crates" / crate / "src").glob("**/*.rt"))}
    sources = [plain(text) for text in files.values()]
    fields = "\n".join(text for it, text in files.items() if "bib_entry/src" in str(it))
    yield from ((path, why) for why in check_names(lists["names"], lists["getters"], root, sources, differences))
    yield from ((path, why) for why in check_root(lists["root"], plain(root)))
    yield from ((path, why) for why in check_getters(lists["getters"], fields))
    yield from ((path, why) for why in check_impls(lists["impls"], sources))
    yield from ((path, why) for why in check_texts(lists["texts"], list(files.values())))
