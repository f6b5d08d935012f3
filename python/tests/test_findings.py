"""Findings of `parse`, `recover` and `lint`, and the entries that `recover` returns."""

import copy
import pickle
import unittest
from typing import Union

from support import biblatex

BROKEN = "@misc{a, title={A}\n@misc{b, title=foo, note={N}}\n@misc{b, title={B}}"

REFERENCES = """\
@string{jsl = {Journal of Symbolic Logic}}

@article{church1936,
  author = {Church, Alonzo},
  title = {A Note on the Entscheidungsproblem},
  journaltitle = jsl,
  date = {1936-03},
  note2 = {two pages},
}

@book{knuth1984,
  author = {Knuth, Donald E.},
  title = {The TeXbook},
  year = {1984},
  volume = {one},
}

@book{turing1950,
  author = {Turing, Alan},
  title = {Computing Machinery}
  year = {1950},
}
"""


class Parsing(unittest.TestCase):
    def error_of(self, text: Union[str, bytes]) -> biblatex.ParseError:
        with self.assertRaises(biblatex.ParseError) as raised:
            biblatex.parse(text)
        return raised.exception

    def places(self, text: str) -> list[tuple[int, int, str]]:
        return [(finding.line, finding.column, finding.code) for finding in self.error_of(text).findings]

    def test_a_syntax_error(self) -> None:
        error = self.error_of("@misc{a, title={A}}\n@misc{b, title={B}")
        self.assertIsInstance(error, ValueError)
        self.assertEqual(str(error), "2:19: b: expected comma")
        self.assertEqual((error.line, error.column), (2, 19))
        self.assertEqual(list(error.findings), [biblatex.Finding(2, 19, "error", "syntax", "b: expected comma")])

    def test_the_end_of_the_text(self) -> None:
        self.assertEqual(str(self.error_of("@misc{a,\n  title={A")), "2:3: a: incomplete field; is a brace or a quote open?")

    def test_all_findings_are_there_in_order(self) -> None:
        self.assertEqual([str(finding) for finding in self.error_of(BROKEN).findings], ["2:1: a: expected comma", '2:16: unknown abbreviation "foo"', '3:1: duplicate key "b"'])

    def test_columns_count_characters(self) -> None:
        self.assertEqual(self.places("@misc{\u00e9\U0001d538, title = \u00e9}"), [(1, 19, "unknown-abbreviation")])

    def test_each_kind_of_error(self) -> None:
        self.assertEqual(self.places("@misc{a title={A}}"), [(1, 9, "syntax")])
        self.assertEqual(self.places('@misc{a, title="x}y"}'), [(1, 18, "unread-field")])
        self.assertEqual(self.places("@misc{a, title = foo}"), [(1, 18, "unknown-abbreviation")])
        self.assertEqual(self.places("@string{a = a}\n@misc{k, title = a}"), [(1, 13, "circular-abbreviation")])
        self.assertEqual(self.places("@misc{a,}\n@misc{a,}"), [(2, 1, "duplicate-key")])
        self.assertEqual(self.places("@misc{a, crossref={a}}"), [(1, 1, "circular-reference")])
        self.assertEqual(self.places("@book{p, year={x}}\n@inbook{c, crossref={p}}"), [(1, 16, "unread-date")])

    def test_warnings_alone_hinder_nothing(self) -> None:
        text = "@misc{k, nonsense={x}, volume={one}, crossref={nobody}}"
        self.assertEqual(list(biblatex.parse(text)), ["k"])
        self.assertNotEqual(biblatex.lint(text), [])

    def test_bytes_that_are_not_utf8(self) -> None:
        error = self.error_of(b"@misc{k,\n title={caf\xe9}}")
        self.assertEqual((error.line, error.column, error.findings[0].code), (2, 12, "unread-bytes"))

    def test_errors_are_copied_and_pickled(self) -> None:
        error = self.error_of(BROKEN)
        for other in (copy.copy(error), pickle.loads(pickle.dumps(error))):
            self.assertEqual((str(other), list(other.findings)), (str(error), list(error.findings)))


class Recovering(unittest.TestCase):
    def test_a_text_without_errors(self) -> None:
        text = "@misc{a, title={A}}\n@misc{b, xdata={x}}\n@xdata{x, note={N}}"
        bibliography, findings = biblatex.recover(text)
        self.assertEqual(findings, [])
        self.assertEqual(bibliography.entries, biblatex.parse(text).entries)

    def test_what_can_be_read(self) -> None:
        bibliography, findings = biblatex.recover(BROKEN)
        self.assertEqual([str(finding) for finding in findings], ["2:1: a: expected comma", '2:16: unknown abbreviation "foo"', '3:1: duplicate key "b"'])
        self.assertEqual([finding.severity for finding in findings], ["error", "warning", "error"])
        self.assertEqual({key: entry.fields for key, entry in bibliography.items()}, {"a": {"title": "A"}, "b": {"note": "N", "title": "foo"}})

    def test_the_formats_of_what_could_be_read(self) -> None:
        bibliography, _ = biblatex.recover("@misc{a, title={A}\n@article{b, title={B}, journaltitle={J}, year=1999}\n")
        self.assertEqual(bibliography.to_biblatex(), "@misc{a,\ntitle = {A},\n}\n\n@article{b,\njournaltitle = {J},\ntitle = {B},\nyear = {1999},\n}\n")
        self.assertEqual(bibliography.to_bibtex(), "@misc{a,\ntitle = {A},\n}\n\n@article{b,\njournal = {J},\ntitle = {B},\nyear = {1999},\n}\n")
        self.assertEqual(
            bibliography.to_csl(),
            [{"id": "a", "type": "document", "title": "A"}, {"id": "b", "type": "article-journal", "title": "B", "container-title": "J", "issued": {"date-parts": [[1999]]}}],
        )
        self.assertEqual(str(bibliography["b"].date()), "1999")

    def test_what_each_error_costs(self) -> None:
        bibliography, findings = biblatex.recover('@misc{a, title="x}y", note={N}}\n@misc{b, crossref={b}, note={M}}\n@misc{c, note = s}\n@string{s = s}')
        self.assertEqual({key: entry.fields for key, entry in bibliography.items()}, {"a": {"note": "N"}, "b": {"note": "M"}, "c": {}})
        self.assertEqual({finding.code for finding in findings}, {"unread-field", "circular-reference", "circular-abbreviation"})

    def test_findings_are_of_reading_alone(self) -> None:
        bibliography, findings = biblatex.recover("@misc{k, nonsense={x}}")
        self.assertEqual((list(bibliography), findings), (["k"], []))

    def test_bytes_of_windows_1252(self) -> None:
        bibliography, findings = biblatex.recover(b"@misc{k, title={\x93caf\xe9\x94}}")
        self.assertEqual(bibliography["k"]["title"], "\u201ccaf\u00e9\u201d")
        self.assertEqual([(finding.line, finding.column, finding.code) for finding in findings], [(1, 17, "unread-bytes")])
        self.assertEqual(bibliography.to_biblatex(), "@misc{k,\ntitle = {\u201ccaf\u00e9\u201d},\n}\n")
        self.assertEqual(bibliography["k"].chunks("title"), [biblatex.Chunk("normal", "\u201ccaf\u00e9\u201d", 16, 27)])

    def test_each_byte_of_windows_1252(self) -> None:
        high = bytes(range(0xA0, 0x100))
        bibliography, _ = biblatex.recover(b"@misc{k, title={\x80\x81\x9f" + high + b"}, url={\x8d\xe9}}")
        self.assertEqual(bibliography["k"]["title"], "\u20ac\x81\u0178" + high.decode("latin-1").replace("\xa0", " "))
        self.assertEqual(bibliography["k"]["url"], "\x8d\xe9")

    def test_nothing_can_be_read(self) -> None:
        bibliography, findings = biblatex.recover("@{a")
        self.assertEqual((len(bibliography), len(findings)), (0, 1))
        self.assertEqual((bibliography.to_biblatex(), bibliography.to_bibtex(), bibliography.to_csl()), ("", "", []))


class Linting(unittest.TestCase):
    def test_all_that_is_wrong(self) -> None:
        finding = biblatex.Finding
        wanted = [
            finding(8, 3, "warning", "unknown-field", "unknown field `note2`"),
            finding(15, 3, "info", "not-a-number", "knuth1984: malformed volume: invalid number"),
            finding(21, 3, "error", "syntax", "turing1950: expected comma"),
        ]
        self.assertEqual(biblatex.lint(REFERENCES), wanted)

    def test_nothing_is_wrong(self) -> None:
        self.assertEqual(biblatex.lint("@book{k, author={A}, title={T}, year={1999}, publisher={P}, location={L}}"), [])

    def test_messages_with_quotes_and_other_characters(self) -> None:
        # BibTeX 0.99d: A bad cross reference---entry "k" refers to entry "é"\&", which doesn't exist
        messages = [finding.message for finding in biblatex.lint("@xdata{k, crossref={\u00e9\"\\&}}")]
        self.assertEqual(messages, ['k: no entry "\u00e9"\\&" (crossref)'])

    def test_bytes_that_are_not_utf8_come_first(self) -> None:
        findings = biblatex.lint(b"@misc{k, nonsense={x}, note={\xe9}}")
        self.assertEqual([finding.code for finding in findings][0], "unread-bytes")
        self.assertIn("unknown-field", [finding.code for finding in findings])

    def test_what_is_shown(self) -> None:
        self.assertEqual(str(biblatex.Finding(3, 12, "error", "syntax", "expected comma")), "3:12: expected comma")


if __name__ == "__main__":
    unittest.main()
