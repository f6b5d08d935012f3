"""Bibliographies: entries, inheritance and output formats."""

import json
import unittest
from collections.abc import Mapping

from support import biblatex, only

MEETING = """\
@proceedings{stoc71, title = {Theory of {Computing}}, date = {1971-05-03}, publisher = acm}
@string{acm = {ACM}}
@inproceedings{cook1971,
  author = {Cook, S.},
  title = {Theorem Proving},
  crossref = {stoc71},
}
"""


class Entries(unittest.TestCase):
    def test_a_bibliography_is_a_mapping_in_the_order_of_the_file(self) -> None:
        bibliography = biblatex.parse("@misc{b, title={B}}\n@book{a, title={A}}\n@misc{C, title={C}}")
        self.assertIsInstance(bibliography, Mapping)
        self.assertEqual(list(bibliography), ["b", "a", "C"])
        self.assertEqual([entry.key for entry in bibliography.entries], ["b", "a", "C"])
        self.assertEqual([(key, entry["title"]) for key, entry in bibliography.items()], [("b", "B"), ("a", "A"), ("C", "C")])
        self.assertEqual(len(bibliography), 3)
        self.assertIn("a", bibliography)
        self.assertNotIn("c", bibliography)
        self.assertIsNone(bibliography.get("c"))
        with self.assertRaises(KeyError):
            bibliography["c"]

    def test_other_names(self) -> None:
        bibliography = biblatex.parse("@book{tolkien1937, ids={hobbit, there and back}}\n@misc{other, ids={hobbit}}")
        self.assertIs(bibliography["there and back"], bibliography["tolkien1937"])
        self.assertIs(bibliography["hobbit"], bibliography["other"])
        self.assertIn("hobbit", bibliography)
        self.assertEqual(list(bibliography), ["tolkien1937", "other"])

    def test_a_key_counts_before_other_names(self) -> None:
        bibliography = biblatex.parse("@misc{a,}\n@misc{b, ids={a}}")
        self.assertEqual(bibliography["a"].key, "a")

    def test_what_is_shown(self) -> None:
        self.assertEqual(repr(biblatex.parse("@misc{a,}")), "<Bibliography of 1 entry>")
        self.assertEqual(repr(biblatex.parse("")), "<Bibliography of 0 entries>")


class Inheritance(unittest.TestCase):
    def test_crossref(self) -> None:
        paper = biblatex.parse(MEETING)["cook1971"]
        self.assertEqual((paper["title"], paper["booktitle"], paper["publisher"]), ("Theorem Proving", "Theory of Computing", "ACM"))
        self.assertEqual(str(paper.date()), "1971-05-03")
        self.assertEqual(paper["crossref"], "stoc71")
        self.assertEqual(paper.parents, ["stoc71"])

    def test_inherited_chunks_stand_where_the_file_has_them(self) -> None:
        first, second = biblatex.parse(MEETING)["cook1971"].chunks("booktitle")
        self.assertEqual((MEETING[first.start : first.end], MEETING[second.start : second.end]), ("Theory of ", "Computing"))

    def test_xdata(self) -> None:
        bibliography = biblatex.parse("@xdata{press, publisher={P}, location={L}}\n@book{b, title={T}, xdata={press}, location={M}}")
        self.assertEqual(bibliography["b"].fields, {"title": "T", "publisher": "P", "location": "M"})
        self.assertEqual(bibliography["b"].parents, [])
        self.assertEqual(list(bibliography), ["press", "b"])

    def test_an_inherited_year(self) -> None:
        bibliography = biblatex.parse("@book{p, title={T}, year={1999}, month=may}\n@inbook{c, title={C}, crossref={p}}")
        self.assertEqual(str(bibliography["c"].date()), "1999-05")
        self.assertEqual(bibliography["c"]["booktitle"], "T")

    def test_parents(self) -> None:
        self.assertEqual(only("@misc{k, xref={a, b ,c}}").parents, ["a", "b", "c"])
        self.assertEqual(only("@misc{k, crossref={p}, xref={a,{b,c}d}}").parents, ["p", "a", "b,cd"])


class Formats(unittest.TestCase):
    def test_biblatex(self) -> None:
        bibliography = biblatex.parse('@MISC{a, title="T"}\n@article{b, journal={J}}')
        self.assertEqual(bibliography.to_biblatex(), "@misc{a,\ntitle = {T},\n}\n\n@article{b,\njournaltitle = {J},\n}\n")

    def test_bibtex(self) -> None:
        self.assertEqual(biblatex.parse("@article{a, journaltitle={J}}").to_bibtex(), "@article{a,\njournal = {J},\n}\n")

    def test_what_is_written_is_read_again(self) -> None:
        bibliography = biblatex.parse(MEETING)
        again = biblatex.parse(bibliography.to_biblatex())
        self.assertEqual({key: entry.fields for key, entry in again.items()}, {key: entry.fields for key, entry in bibliography.items()})

    def test_csl(self) -> None:
        bibliography = biblatex.parse("@book{knuth1984, author = {Knuth, Donald E.}, title = {The {TeX}book}, publisher = {Addison-Wesley}, date = {1984-05}}")
        item = {
            "author": [{"family": "Knuth", "given": "Donald E."}],
            "id": "knuth1984",
            "issued": {"date-parts": [[1984, 5]]},
            "publisher": "Addison-Wesley",
            "title": 'The <span class="nocase">TeX</span>book',
            "type": "book",
        }
        self.assertEqual(bibliography.to_csl(), [item])
        self.assertEqual(json.loads(bibliography.to_csl_json()), [item])

    def test_json(self) -> None:
        field = {"chunks": [{"kind": "normal", "text": "T", "start": 16, "end": 17}]}
        wanted = [{"type": "misc", "key": "k", "fields": {"title": field}}]
        self.assertEqual(json.loads(biblatex.parse("@misc{k, title={T}}").to_json()), wanted)


if __name__ == "__main__":
    unittest.main()
