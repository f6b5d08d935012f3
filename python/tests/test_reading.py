"""Parsing: entries, fields and chunks, and texts with unusual characters or sizes."""

import copy
import dataclasses
import pickle
import unittest
from typing import Union

from support import biblatex, byte_of, only

HOBBIT = "@book{tolkien1937, author = {J. R. R. Tolkien}, title = {The {Hobbit}}, ids = {hobbit}}"


class Fields(unittest.TestCase):
    def test_type_key_and_fields(self) -> None:
        book = only("@BOOK{tolkien1937, Title = {The {Hobbit}}, YEAR = 1937}")
        self.assertEqual((book.type, book.key), ("book", "tolkien1937"))
        self.assertEqual(book["title"], "The Hobbit")
        self.assertEqual(book.fields, {"title": "The Hobbit", "year": "1937"})

    def test_an_entry_is_a_mapping_of_texts(self) -> None:
        book = only(HOBBIT)
        self.assertEqual(list(book), ["author", "ids", "title"])
        self.assertEqual(len(book), 3)
        self.assertIn("author", book)
        self.assertNotIn("Author", book)
        self.assertIsNone(book.get("year"))
        self.assertEqual(dict(book), book.fields)
        with self.assertRaises(KeyError):
            book["year"]

    def test_an_entry_without_fields(self) -> None:
        entry = only("@misc{k,}")
        self.assertEqual((len(entry), entry.fields, entry.parents, entry.people(), entry.date()), (0, {}, [], [], None))

    def test_the_text_of_commands_dashes_and_math(self) -> None:
        entry = only(r"@misc{k, title = {G{\"o}del -- a \& b --- $a_{1}$}}")
        self.assertEqual(entry["title"], "G\u00f6del \u2013 a & b \u2014 $a_{1}$")

    def test_runs_of_white_space_are_one_space(self) -> None:
        self.assertEqual(only("@misc{k, title = {A\n    B\t C}}")["title"], "A B C")

    def test_abbreviations_and_months(self) -> None:
        bibliography = biblatex.parse('@string{jsl = "Journal"}\n@article{k, journal = jsl # " B", month = mar}')
        self.assertEqual(bibliography["k"].fields, {"journal": "Journal B", "month": "March"})

    def test_the_last_of_two_fields_with_one_name_counts(self) -> None:
        self.assertEqual(only("@misc{k, title = {A}, TITLE = {B}}").fields, {"title": "B"})


class Chunks(unittest.TestCase):
    def test_kinds_texts_and_places(self) -> None:
        text = "@misc{k, title={A {B} $c$}}"
        chunk = biblatex.Chunk
        wanted = [chunk("normal", "A ", 16, 18), chunk("verbatim", "B", 19, 20), chunk("normal", " ", 21, 22), chunk("math", "c", 23, 24)]
        self.assertEqual(only(text).chunks("title"), wanted)
        self.assertEqual(only(text)["title"], "A B $c$")

    def test_places_are_bytes(self) -> None:
        text = "@misc{k, note={\u00c9\u2014}, title={T\u00e9}}"
        start = byte_of(text, "T\u00e9")
        self.assertEqual(only(text).chunks("title"), [biblatex.Chunk("normal", "T\u00e9", start, start + 3)])
        (chunk,) = only(text).chunks("title")
        self.assertEqual(text.encode()[chunk.start : chunk.end].decode(), "T\u00e9")

    def test_a_field_that_is_not_there(self) -> None:
        with self.assertRaises(KeyError):
            only("@misc{k,}").chunks("title")


class Entries(unittest.TestCase):
    def test_entries_are_frozen(self) -> None:
        book = only(HOBBIT)
        with self.assertRaises(dataclasses.FrozenInstanceError):
            book.key = "other"  # type: ignore[misc]
        fields = book.fields
        fields["title"] = "changed"
        self.assertEqual(book["title"], "The Hobbit")

    def test_equality(self) -> None:
        self.assertEqual(only(HOBBIT), only(HOBBIT))
        self.assertEqual(hash(only(HOBBIT)), hash(only(HOBBIT)))
        self.assertNotEqual(only(HOBBIT), only(HOBBIT.replace("Hobbit}}", "Habbit}}")))
        self.assertNotEqual(only(HOBBIT), only(HOBBIT.replace("@book", "@misc")))
        self.assertNotEqual(only(HOBBIT), only(HOBBIT).fields)

    def test_copies_and_pickles(self) -> None:
        book = only("@book{k, title = {T}, year = 1999, month = may}")
        for other in (copy.deepcopy(book), pickle.loads(pickle.dumps(book))):
            self.assertEqual(other, book)
            self.assertEqual(str(other.date()), "1999-05")

    def test_what_is_shown(self) -> None:
        self.assertEqual(repr(only("@misc{k, title={T}}")), "Entry('misc', 'k', {'title': 'T'})")


class Texts(unittest.TestCase):
    def test_the_empty_text(self) -> None:
        texts: list[Union[str, bytes]] = ["", b""]
        for text in texts:
            bibliography = biblatex.parse(text)
            self.assertEqual((len(bibliography), list(bibliography), bibliography.entries), (0, [], ()))
            self.assertEqual((bibliography.to_biblatex(), bibliography.to_bibtex(), bibliography.to_csl()), ("", "", []))
            self.assertEqual(biblatex.recover(text)[1], [])
            self.assertEqual(biblatex.lint(text), [])

    def test_text_without_entries(self) -> None:
        self.assertEqual(list(biblatex.parse("only words\n% @misc{no, title={comment}}\n")), [])

    def test_str_and_bytes_are_read_alike(self) -> None:
        text = "@misc{k, title={\u00c9tude}}"
        self.assertEqual(biblatex.parse(text)["k"], biblatex.parse(text.encode())["k"])

    def test_a_byte_of_zero(self) -> None:
        text = "@misc{k, title={a\0b}}\n@misc{l, title={c}}"
        bibliography = biblatex.parse(text)
        self.assertEqual([entry["title"] for entry in bibliography.entries], ["a\0b", "c"])
        self.assertEqual(bibliography.to_biblatex(), "@misc{k,\ntitle = {a\0b},\n}\n\n@misc{l,\ntitle = {c},\n}\n")

    def test_characters_beyond_the_first_plane(self) -> None:
        text = "@misc{k, title={\U0001d538 \U0001f4d6}}"
        self.assertEqual(only(text)["title"], "\U0001d538 \U0001f4d6")

    def test_a_byte_order_mark(self) -> None:
        self.assertEqual(list(biblatex.parse("\ufeff@misc{k, title={T}}")), ["k"])
        self.assertEqual(list(biblatex.parse(b"\xef\xbb\xbf@misc{k, title={T}}")), ["k"])

    def test_ends_of_lines(self) -> None:
        self.assertEqual(only("@misc{k,\r\n  title = {A\r\n B},\r\n}\r\n")["title"], "A B")

    def test_what_is_no_text(self) -> None:
        with self.assertRaises(TypeError):
            biblatex.parse(None)  # type: ignore[arg-type]
        with self.assertRaises(UnicodeEncodeError):
            biblatex.parse("@misc{k, title={\udce9}}")


class LargeTexts(unittest.TestCase):
    def test_one_value_of_ten_megabytes(self) -> None:
        value = "x" * 10_000_000
        self.assertEqual(only("@misc{k, title={" + value + "}}")["title"], value)

    def test_entries_of_ten_megabytes(self) -> None:
        count = 10_000
        note = "word " * 200
        text = "".join(f"@misc{{k{index}, title={{T{index}}}, note={{{note}}}}}\n" for index in range(count))
        self.assertGreater(len(text), 10_000_000)
        bibliography = biblatex.parse(text)
        self.assertEqual(list(bibliography), [f"k{index}" for index in range(count)])
        self.assertEqual(bibliography["k9999"]["title"], "T9999")
        self.assertEqual(bibliography["k9999"]["note"], note)


if __name__ == "__main__":
    unittest.main()
