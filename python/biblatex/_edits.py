"""Edits of a text, and its default style."""

from __future__ import annotations

from typing import Mapping

from ._findings import SYNTAX_CODES, ParseError, findings_with
from ._native import EditRefused, NotUtf8, Refused, Status, call
from ._text import Text, as_bytes


class EditError(ValueError):
    """Raised when an edit is refused. The message says why."""


_UNBALANCED = {Status.UNBALANCED_QUOTES: "the braces of a text in quotes aren't balanced, so BibTeX and Biber end it elsewhere"}


def _like(text: Text, data: bytes) -> Text:
    if isinstance(text, str):
        return data.decode()
    return data


def _edit(text: Text, name: str, *words: str, why: Mapping[Status, str]) -> Text:
    """Returns the text that the call `name` writes for the arguments `words`.

    `why` has the message of the `EditError` for each status that refuses the edit.
    """
    data, arguments = as_bytes(text), [as_bytes(word) for word in words]
    try:
        return _like(text, call(name, data, *arguments, capacity=len(data) + sum(map(len, arguments)) + 64))
    except EditRefused as refusal:
        raise EditError({**_UNBALANCED, **why}[refusal.status]) from None
    except (NotUtf8, Refused):
        raise ParseError(findings_with(data, SYNTAX_CODES)) from None


def _unknown_key(key: str) -> Mapping[Status, str]:
    return {Status.UNKNOWN_KEY: f"no entry has the key {key!r}"}


def set_field(text: Text, key: str, name: str, value: str, *, bare: bool = False) -> Text:
    """Returns the text with the field `name` of the entry `key` set to `value`, in braces.

    With `bare`, the value is written without braces. It must be a number, the abbreviation of a month, such as `jan`, or an
    abbreviation that is defined before the entry.

    If several fields of the entry have this name, each gets the value. If the entry lacks the field, it is added before the
    other fields, laid out like them. `value` is TeX source, and its braces must balance. BibTeX also counts a brace after a
    backslash. This edit and the others change no other byte.

    Raises an `EditError` if no entry has the key, if `name` isn't a field name, or if `value` can't be written in braces,
    or without braces if `bare`.
    Each edit raises a `ParseError` if the text has a syntax error or isn't UTF-8, and an `EditError` if it contains a text in
    quotes whose braces aren't balanced, such as `"The {"}Big{"} one"`: BibTeX and Biber end such a text elsewhere.
    """
    why = {
        **_unknown_key(key),
        Status.NOT_A_NAME: f"{name!r} can't be the name of a field",
        Status.NOT_IN_BRACES: f"the value can't be written in braces: {value!r}",
        Status.NOT_BARE: f"the value is neither a number nor an abbreviation that is defined before the entry: {value!r}",
    }
    return _edit(text, "biblatex_set_bare" if bare else "biblatex_set", key, name, value, why=why)


def unset_field(text: Text, key: str, name: str) -> Text:
    """Returns the text with each field `name` of the entry `key` removed, or the same text if the entry has none.

    Raises an `EditError` if no entry has the key, or if the entry would have no field left.
    """
    why = {**_unknown_key(key), Status.NO_FIELD_LEFT: f"the entry {key!r} would have no field left"}
    return _edit(text, "biblatex_unset", key, name, why=why)


def rename_key(text: Text, old: str, new: str) -> Text:
    """Returns the text with the key `old` replaced by `new`, also in references to it whose value is one text, for example in `crossref`.

    Raises an `EditError` in these cases:

    - No entry has the key `old`, or `old` is empty.
    - `new` is the key of another entry, or in the field `ids` of an entry, in any ASCII case.
    - BibTeX, Biber or bibtool wouldn't read the key `new`, or `new` is `*`.
    """
    # each key of a file can be renamed, except the empty one: if `old` isn't empty, the status is about `new`
    refused = new if old else old
    why = {
        **_unknown_key(old),
        Status.KEY_IS_THERE: f"an entry has the name {new!r} already",
        Status.NOT_A_KEY: f"{refused!r} can't be a key",
        Status.NOT_IN_BRACES: f"{new!r} can't stand in a reference",
    }
    return _edit(text, "biblatex_rename", old, new, why=why)


def remove_entry(text: Text, key: str) -> Text:
    """Returns the text without the entry `key` and the white space after that entry.

    Raises an `EditError` if no entry has the key.
    """
    return _edit(text, "biblatex_remove", key, why=_unknown_key(key))


def _keys(text: bytes) -> frozenset[str]:
    # the call writes one key per line; a key contains no white space, but may be empty
    return frozenset(call("biblatex_keys", text, capacity=len(text) + 1).decode().split("\n")[:-1])


def _is_unsafe(key: str) -> bool:
    # an entry with the key isn't added to an empty text
    try:
        call("biblatex_add", b"", f"@misc{{{key},}}".encode())
    except EditRefused as refusal:
        return refusal.status == Status.NOT_A_KEY
    return False


def _why_not_added(status: Status, text: bytes, added: bytes) -> str:
    if status == Status.DEFINITION_IS_THERE:
        return "an abbreviation is defined already with another text"
    if status == Status.UNBALANCED_QUOTES:
        return _UNBALANCED[status]
    if status == Status.NOT_A_KEY:
        return f"{min(filter(_is_unsafe, _keys(added)))!r} can't be a key"
    common = _keys(text) & _keys(added)
    if common:
        return f"an entry has the name {min(common)!r} already"
    return "an added entry has a name of another entry"


def add_entries(text: Text, added: Text) -> Text:
    """Returns the text, and the text `added` after it on a new line.

    If the first line of the text ends with CR LF, so do the added lines. Raises an `EditError` in these cases:

    - An added entry has a name of another entry, in any ASCII case. The names of an entry are its key and those in its `ids`.
    - BibTeX, Biber or bibtool wouldn't read the key of an added entry, or the key is `*`.
    - `added` gives an abbreviation of the text another value.
    - The braces of a text in quotes aren't balanced, in the text or in `added`.
    - `added` has a syntax error or isn't UTF-8.
    """
    data, more = as_bytes(text), as_bytes(added)
    try:
        return _like(text, call("biblatex_add", data, more, capacity=len(data) + len(more) + 64))
    except EditRefused as refusal:
        raise EditError(_why_not_added(refusal.status, data, more)) from None
    except (NotUtf8, Refused):
        findings = findings_with(data, SYNTAX_CODES)
    if findings:
        raise ParseError(findings)
    raise EditError(f"what is added can't be read: {findings_with(more, SYNTAX_CODES)[0]}")


def format(text: Text) -> Text:
    """Returns the text in the default style: types and names in lowercase, and one field per line, after two spaces.

    The text between entries is unchanged, and so is an entry that contains a comment. Raises a `ParseError` if the text has
    a syntax error or isn't UTF-8.
    """
    data = as_bytes(text)
    try:
        return _like(text, call("biblatex_fmt", data, capacity=len(data) * 3 // 2 + 1024))
    except (NotUtf8, Refused):
        raise ParseError(findings_with(data, SYNTAX_CODES)) from None
