"""Reports where the text of a program builds an out-of-memory error without an error to build it from.

Such an error is `AllocError`, a variant `OutOfMemory`, or a struct that hands a value back (`HANDING_BACK`). It may be built

- in a function with a parameter of such a type, as `From::from` has it;
- in a function `unless_out_of_memory`, in the arm of a `match` that matches the variant `OutOfMemory`. This function is a
  method of an error type (`ERROR`) with a `self` receiver, or takes one parameter, an error of a type of another crate;
- where an `io::Error` was found to be of the kind `OutOfMemory`, and where a `match` copies the variant that it found, or its
  namesake of another type.

Elsewhere `?` passes such an error on. No contract covers this: a body that returns out of memory where memory is there meets it.

The allocator also refuses a size that no machine has. So a call that reserves memory (`RESERVING`) is reported too, unless its
size is made of names, lengths, sums and numbers up to `LARGEST`.

The script can't see these ways to return out of memory where memory is there:

- a local name or a field with too large a size, as after `let n = usize::MAX;`;
- a loop that grows a value which no result needs;
- an error of a refused growth that is kept, and returned in a later call.
"""
import re

HANDING_BACK = ("AllocFailed", "InsertError", "SetError")
RENAMED = rf"\b(?:AllocError|OutOfMemory|{'|'.join(HANDING_BACK)})\s+as\s+\w+|\btype \w+ = (?:\w+::)*AllocError\b"
GIVEN = rf":\s*(AllocError|(?:{'|'.join(HANDING_BACK)})\b)"
BUILT = rf"(?:\b\w+::)*\b(?:AllocError|OutOfMemory)\b|\b(?:{'|'.join(HANDING_BACK)})\s*(?=\{{)"
ERROR = r"(?:\w*Error|\w+Failed|Stop)"
# a growing text refuses a text, `NotTaken`, only for lack of memory
SPLIT = r"(?:(?<=[{},])\s*(?:ConvertError::NotTaken \| )?(?:\w+::)?|== ErrorKind::)OutOfMemory\s*=>\s*\{?\s*Err\(AllocError\)"
RESERVING = r"(?<!fn )\b(?:with_capacity|(?:try_)?reserve(?:_exact)?|repeat|resize)(?=\()"
LARGEST = 4096
NUMBER = r"\b\d[\d_]*(?!\w)"
CONSTANT = r"(?<!:)\b[A-Z]\w*\b(?!:)"
IN_SIZES = r"\b(?:len|allocator|min|max|saturating_add|saturating_sub)(?=\()|\b[a-z_]\w*\b(?![(:])|(?<![\w)\]])(?<![\w)\]] )\*|[.,&()+-]|\s"


def blank(text, start, end):
    """The text without a part, with each place as it was."""
    return text[:start] + re.sub(r"[^\n]", " ", text[start:end]) + text[end:]


def closing(text, opening):
    """The place after the bracket that closes this one."""
    depth = 0
    for place in range(opening, len(text)):
        if text[place] in "([{":
            depth += 1
        elif text[place] in ")]}":
            depth -= 1
            if not depth:
                return place + 1
    return len(text)


def opening(text, place):
    """The place of the bracket around a place, or -1."""
    depth = 0
    for at in range(place - 1, -1, -1):
        if text[at] in ")]}":
            depth += 1
        elif text[at] in "([{":
            if not depth:
                return at
            depth -= 1
    return -1


def code(text):
    """A file's text without comments, texts in quotes, ghost items and clauses."""
    for found in re.finditer(r"\"(?:\\.|[^\"\\])*\"|'(?:\\.|[^'\\])'|//[^\n]*", text, re.S):
        text = blank(text, *found.span())
    return without(text, r"\bghost\b", r"\b(?:requires|ensures|invariant|decreases)\b\*?")


def without(text, *words):
    """The text without the items that begin with these words: to a semicolon, or to the end of their braces."""
    for word in words:
        for found in re.finditer(rf"(?m)(?<![\w.]){word}[^{{;]*", text):
            end = found.end()
            if text[found.start():end].strip() and text[end:end + 1] == "{":
                end = closing(text, end)
            text = blank(text, found.start(), end)
    return text


def takes_error(text, start, head):
    """Whether the function at this place is a method on `self` of an error type, or has one parameter, which is an error."""
    around = opening(text, start)
    if around >= 0 and re.search(rf"\bimpl(?:<[^{{]*>)? {ERROR}(?:<[^{{]*>)?\s*$", text[:around]):
        return bool(re.match(r"\(&?self\)", head))
    return bool(re.match(rf"\(\w+: {ERROR}\)", head))


def plain(text):
    """The code without imports, declarations of types, heads of functions and impls, and bodies that may build such errors."""
    text = without(text, r"\b(?:struct|enum)\b", r"\b(?:use|type)\b")
    for found in re.finditer(r"\bfn (\w+)([^{;]*)", text):
        end = closing(text, found.end()) if text[found.end():found.end() + 1] == "{" else found.end()
        if found[1] == "unless_out_of_memory" and takes_error(text, found.start(), found[2]):
            for arm in re.finditer(SPLIT, text[found.end():end]):
                text = blank(text, found.end() + arm.start(), found.end() + arm.end())
        text = blank(text, found.start(), end if re.search(GIVEN, found[2]) else found.end())
    for found in re.finditer(r"(?m)^(?:impl|pub trait|trait)\b[^{;]*", text):
        text = blank(text, *found.span())
    return text


def is_tested(text, start, end):
    """Whether it stands in a pattern or beside `==`, so that a value is compared with it."""
    if re.search(r"[!=]=\s*$", text[:start]) or re.match(r"\s*[!=]=", text[end:]):
        return True
    while (around := opening(text, start)) >= 0 and (text[around] != "{" or re.search(r"\b[A-Z]\w*\s*$", text[:around])):
        if text[:around].endswith("matches!"):
            return "," in text[around:start]
        start, end = around, closing(text, around)
    return bool(re.match(r"\s*(?:=>|=[^=]|\||if\b)", text[end:]))


def is_passed_on(text, start, what):
    """Whether a match found the variant of this name, of the same type or another, or an `io::Error` of this kind."""
    variant = rf"\b{what.rpartition('::')[2]}"
    return bool(re.search(rf"{variant}\s*=>\s*$|\bErrorKind::OutOfMemory\s*=>\s*(?:return )?(?:Err\()?$", text[:start]))


def is_type(text, start, end):
    """Whether it is an argument of a type, or `AllocError::from`, which is given one."""
    return bool(re.match(r"\s*>|::from\b", text[end:]) or re.search(r"<\s*$", text[:start]))


def is_usual(size, text):
    """Whether a size is made of names, lengths, sums and small numbers, those of this file's constants among them."""
    for found in re.finditer(CONSTANT, size):
        value = re.search(rf"\bconst {found[0]}: \w+ = ({NUMBER});", text)
        size = size.replace(found[0], value[1] if value else "?")
    numbers = [int(it.replace("_", "")) for it in re.findall(NUMBER, size)]
    return all(it <= LARGEST for it in numbers) and not re.sub(rf"{IN_SIZES}|{NUMBER}", "", size)


def reserved(text):
    """The numbers of the lines that reserve memory of an unusual size, each with the size."""
    for found in re.finditer(RESERVING, text):
        size = text[found.end() + 1:closing(text, found.end()) - 1]
        if not is_usual(size, text):
            yield text.count("\n", 0, found.start()) + 1, f"an error by {found[0]}({size})"


def built(text):
    """The numbers of the lines that build such an error, by an unusual size too, or give it another name, each with its text."""
    text = code(text)
    yield from reserved(text)
    for found in re.finditer(RENAMED, text):
        yield text.count("\n", 0, found.start()) + 1, found[0]
    text = plain(text)
    for found in re.finditer(BUILT, text):
        start, end = found.span()
        if text[end:end + 1] == "{":
            end = closing(text, end)
        if not (is_tested(text, start, end) or is_passed_on(text, start, found[0]) or is_type(text, start, end)):
            yield text.count("\n", 0, start) + 1, found[0].strip()
