"""Edits of texts, and the default style."""

import unittest
from typing import Callable

from support import biblatex

BOOKS = """\
@book{knuth1984,
  author = {Knuth, Donald E.},
  title = {The TeXbook},
}
"""

BOTH = "% notes\n@book{a,title={A},  Note = {N}} more\n\n@misc{b, crossref = {a}, related={x, a}}\r\n"


class Fields(unittest.TestCase):
    def test_a_field_is_set(self) -> None:
        wanted = BOTH.replace("{N}", "{The {M}}")
        self.assertEqual(biblatex.set_field(BOTH, "a", "note", "The {M}"), wanted)

    def test_a_field_is_added(self) -> None:
        wanted = BOOKS.replace("@book{knuth1984,\n", "@book{knuth1984,\n  year = {1984},\n")
        self.assertEqual(biblatex.set_field(BOOKS, "knuth1984", "year", "1984"), wanted)

    def test_a_field_that_has_the_value(self) -> None:
        self.assertEqual(biblatex.set_field(BOOKS, "knuth1984", "title", "The TeXbook"), BOOKS)

    def test_a_field_is_taken_out(self) -> None:
        wanted = BOOKS.replace("  author = {Knuth, Donald E.},\n", "")
        self.assertEqual(biblatex.unset_field(BOOKS, "knuth1984", "AUTHOR"), wanted)
        self.assertEqual(biblatex.unset_field(BOOKS, "knuth1984", "year"), BOOKS)

    def test_characters_of_every_kind(self) -> None:
        text = "@misc{\u00e9, title={\U0001f4d6}}\r\n\0"
        self.assertEqual(biblatex.set_field(text, "\u00e9", "title", "\u5b57\0"), text.replace("\U0001f4d6", "\u5b57\0"))


class Entries(unittest.TestCase):
    def test_a_key_is_renamed_with_the_references_to_it(self) -> None:
        wanted = BOTH.replace("{a,title", "{new,title").replace("{a}", "{new}").replace("x, a", "x, new")
        self.assertEqual(biblatex.rename_key(BOTH, "a", "new"), wanted)

    def test_an_entry_is_taken_out(self) -> None:
        self.assertEqual(biblatex.remove_entry(BOTH, "b"), BOTH[: BOTH.index("@misc")])
        self.assertEqual(biblatex.remove_entry("@misc{a,}\n\n@misc{b,}\n", "a"), "@misc{b,}\n")

    def test_an_entry_with_an_empty_key(self) -> None:
        self.assertEqual(biblatex.set_field("@misc{, note={N}}", "", "note", "M"), "@misc{, note={M}}")
        self.assertEqual(biblatex.remove_entry("@misc{,}@misc{a,}", ""), "@misc{a,}")

    def test_entries_are_added(self) -> None:
        added = "@misc{tex, title={TeX}}\n@misc{latex,}"
        self.assertEqual(biblatex.add_entries(BOOKS, added), BOOKS + "\n" + added)
        self.assertEqual(list(biblatex.parse(biblatex.add_entries(BOOKS, added))), ["knuth1984", "tex", "latex"])

    def test_bytes_stay_bytes(self) -> None:
        text = BOOKS.encode()
        self.assertEqual(biblatex.set_field(text, "knuth1984", "title", "\u00c9"), text.replace(b"The TeXbook", b"\xc3\x89"))
        self.assertEqual(biblatex.unset_field(text, "knuth1984", "year"), text)
        self.assertEqual(biblatex.rename_key(text, "knuth1984", "k"), text.replace(b"knuth1984", b"k"))
        self.assertEqual(biblatex.remove_entry(text, "knuth1984"), b"")
        self.assertEqual(biblatex.add_entries(text, b"@misc{k,}"), text + b"\n@misc{k,}")
        self.assertEqual(biblatex.format(b"@MISC{k,}"), biblatex.format("@MISC{k,}").encode())


class Refusals(unittest.TestCase):
    def refuses(self, edit: Callable[..., str], *words: str, why: str) -> None:
        with self.assertRaises(biblatex.EditError) as raised:
            edit(*words)
        self.assertEqual(str(raised.exception), why)
        self.assertIsInstance(raised.exception, ValueError)

    def test_no_entry_has_the_key(self) -> None:
        why = "no entry has the key 'z'"
        self.refuses(biblatex.set_field, BOTH, "z", "note", "N", why=why)
        self.refuses(biblatex.unset_field, BOTH, "z", "note", why=why)
        self.refuses(biblatex.rename_key, BOTH, "z", "y", why=why)
        self.refuses(biblatex.remove_entry, BOTH, "z", why=why)
        self.refuses(biblatex.remove_entry, "", "", why="no entry has the key ''")

    def test_the_only_field_stays(self) -> None:
        self.refuses(biblatex.unset_field, "@misc{a, title={A}}", "a", "title", why="the entry 'a' would have no field left")

    def test_what_can_be_no_name_and_no_value(self) -> None:
        self.refuses(biblatex.set_field, BOTH, "a", "my note", "N", why="'my note' can't be the name of a field")
        self.refuses(biblatex.set_field, BOTH, "a", "note", "N}", why="the value can't be written in braces: 'N}'")

    def test_values_without_braces(self) -> None:
        self.assertEqual(biblatex.set_field("@misc{a, month={x}}", "a", "month", "jan", bare=True), "@misc{a, month=jan}")
        self.assertEqual(biblatex.set_field("@misc{a, year={x}}", "a", "year", "2020", bare=True), "@misc{a, year=2020}")
        with self.assertRaisesRegex(biblatex.EditError, "neither a number nor an abbreviation"):
            biblatex.set_field("@misc{a, month={x}}", "a", "month", "smarch", bare=True)

    def test_keys_that_are_there_or_can_be_none(self) -> None:
        self.refuses(biblatex.rename_key, BOTH, "a", "b", why="an entry has the name 'b' already")
        self.refuses(biblatex.rename_key, BOTH, "a", "c d", why="'c d' can't be a key")
        self.refuses(biblatex.rename_key, BOTH, "a", "", why="'' can't be a key")
        self.refuses(biblatex.rename_key, BOTH, "a", "c{", why="'c{' can't be a key")
        self.refuses(biblatex.rename_key, BOTH, "a", "*", why="'*' can't be a key")
        self.refuses(biblatex.rename_key, BOTH, "a", "B", why="an entry has the name 'B' already")
        text = '@misc{a, related="a,{"}'
        self.refuses(biblatex.rename_key, text, "a", "c", why="the braces of a text in quotes aren't balanced, so BibTeX and Biber end it elsewhere")
        self.refuses(biblatex.rename_key, "@misc{,}", "", "a", why="'' can't be a key")
        self.refuses(biblatex.add_entries, BOTH, "@misc{c,}@misc{b,}", why="an entry has the name 'b' already")
        self.refuses(biblatex.add_entries, BOTH, "@misc{c,}@misc{d{,}", why="'d{' can't be a key")
        self.refuses(biblatex.add_entries, BOTH, "@misc{,}", why="'' can't be a key")
        self.refuses(biblatex.add_entries, BOTH, "@misc{c, ids={B}}", why="an added entry has a name of another entry")

    def test_an_abbreviation_that_is_defined_already(self) -> None:
        why = "an abbreviation is defined already with another text"
        self.refuses(biblatex.add_entries, "@string{s={x}}", "@string{S={y}}", why=why)
        self.assertEqual(biblatex.add_entries("@string{s={x}}", '@string{s="x"}'), '@string{s={x}}\n@string{s="x"}')

    def test_what_is_added_has_an_error(self) -> None:
        self.refuses(biblatex.add_entries, BOTH, "@misc{c", why="what is added can't be read: 1:8: c: expected comma")
        self.assertEqual(biblatex.add_entries("@misc{a,}\r\n", "@misc{b,\n}"), "@misc{a,}\r\n\r\n@misc{b,\r\n}")
        quoted = '@misc{a, title = "The {"}Big{"} one"}'
        why = "the braces of a text in quotes aren't balanced, so BibTeX and Biber end it elsewhere"
        self.refuses(biblatex.remove_entry, quoted, "a", why=why)
        self.refuses(biblatex.add_entries, quoted, "@misc{b,}", why=why)
        self.refuses(biblatex.add_entries, "@misc{b,}", quoted, why=why)

    def test_a_text_with_a_syntax_error(self) -> None:
        text = "@misc{a, title={T}}\n@misc{b title={T}}"
        edits: list[tuple[Callable[..., str], tuple[str, ...]]] = [
            (biblatex.set_field, ("a", "title", "U")),
            (biblatex.unset_field, ("a", "title")),
            (biblatex.rename_key, ("a", "c")),
            (biblatex.remove_entry, ("a",)),
            (biblatex.add_entries, ("@misc{c,}",)),
            (biblatex.format, ()),
        ]
        for edit, words in edits:
            with self.assertRaises(biblatex.ParseError) as raised:
                edit(text, *words)
            self.assertEqual(str(raised.exception), "2:9: b: expected comma")

    def test_bytes_that_are_not_utf8(self) -> None:
        for text in (b"@misc{a, title={\xff}}",):
            with self.assertRaises(biblatex.ParseError):
                biblatex.remove_entry(text, "a")
            with self.assertRaises(biblatex.ParseError):
                biblatex.format(text)
            with self.assertRaises(biblatex.EditError):
                biblatex.add_entries(b"", text)

    def test_other_errors_hinder_no_edit(self) -> None:
        text = "@misc{a, title=foo}@misc{b,}@misc{b,}"
        self.assertEqual(biblatex.set_field(text, "a", "title", "T"), text.replace("foo", "{T}"))


class Style(unittest.TestCase):
    def test_the_usual_style(self) -> None:
        text = "@Book{knuth1984, Title={The TeXbook} , YEAR = 1984}\n% as he wrote it\n"
        wanted = "@book{knuth1984,\n  title = {The TeXbook},\n  year = 1984,\n}\n% as he wrote it\n"
        self.assertEqual(biblatex.format(text), wanted)
        self.assertEqual(biblatex.format(wanted), wanted)

    def test_nothing(self) -> None:
        self.assertEqual(biblatex.format(""), "")


if __name__ == "__main__":
    unittest.main()
