"""Typed values of fields: people, dates, pages, numbers, lists and words."""

import unittest
from typing import Optional

from support import biblatex, only

from biblatex import Date, Datetime, Person, Time


def people_of(text: str) -> list[Person]:
    return only("@misc{k, author={" + text + "}}").people()


def date_of(fields: str, name: str = "date") -> Optional[Date]:
    return only("@misc{k, " + fields + "}").date(name)


class People(unittest.TestCase):
    def test_prefixes_and_suffixes(self) -> None:
        wanted = [Person("La Fontaine", given="Jean", prefix="de"), Person("Doe", given="J.", suffix="Jr.")]
        self.assertEqual(people_of("Jean de La Fontaine and Doe, Jr., J."), wanted)
        self.assertEqual(people_of("van der Berg, Sr., Anna Maria"), [Person("Berg", "Anna Maria", "van der", "Sr.")])

    def test_a_name_of_one_word(self) -> None:
        self.assertEqual(people_of("Plato"), [Person("Plato")])

    def test_a_name_in_braces(self) -> None:
        self.assertEqual(people_of("{Barnes and Noble}"), [Person("Barnes and Noble")])

    def test_others(self) -> None:
        self.assertEqual(people_of("Ann Bell and others"), [Person("Bell", "Ann"), Person("others")])

    def test_accents(self) -> None:
        self.assertEqual(people_of(r"Erd{\H o}s, Paul and G\"odel, Kurt"), [Person("Erd\u0151s", "Paul"), Person("G\u00f6del", "Kurt")])

    def test_the_extended_format(self) -> None:
        wanted = Person("A", id="x", prefix_initials="p", given_initials="G", use_prefix=True)
        self.assertEqual(people_of("family=A, given-i=G, prefix-i=p, useprefix=true, id=x"), [wanted])
        self.assertEqual(people_of("family=A, useprefix=no"), [Person("A", use_prefix=False)])

    def test_other_fields_of_people(self) -> None:
        entry = only("@misc{k, editor={Bell, Ann}, title={T}}")
        self.assertEqual(entry.people("editor"), [Person("Bell", "Ann")])
        self.assertEqual(entry.people("translator"), [])
        self.assertEqual(entry.value("editor"), [Person("Bell", "Ann")])
        with self.assertRaises(ValueError):
            entry.people("title")

    def test_what_is_shown(self) -> None:
        self.assertEqual([str(person) for person in people_of("Jean de La Fontaine and Doe, Jr., J. and Plato")], ["Jean de La Fontaine", "J. Doe, Jr.", "Plato"])


class Dates(unittest.TestCase):
    def test_one_date(self) -> None:
        self.assertEqual(date_of("date={2020}"), Date("at", Datetime(2020)))
        self.assertEqual(date_of("date={2020-02}"), Date("at", Datetime(2020, 2)))
        self.assertEqual(date_of("date={2020-02-29}"), Date("at", Datetime(2020, 2, 29)))

    def test_uncertain_and_approximate(self) -> None:
        self.assertEqual(date_of("date={2020-12?}"), Date("at", Datetime(2020, 12), uncertain=True))
        self.assertEqual(date_of("date={2020~}"), Date("at", Datetime(2020), approximate=True))
        self.assertEqual(date_of("date={2020%}"), Date("at", Datetime(2020), None, True, True))

    def test_ranges(self) -> None:
        self.assertEqual(date_of("date={2019/2020-05}"), Date("between", Datetime(2019), Datetime(2020, 5)))
        self.assertEqual(date_of("date={2020/..~}"), Date("after", Datetime(2020), approximate=True))
        self.assertEqual(date_of("date={/-0031-07%}"), Date("before", None, Datetime(-31, 7), True, True))
        self.assertEqual(date_of("date={../1990}"), Date("before", None, Datetime(1990)))

    def test_digits_that_are_not_known(self) -> None:
        self.assertEqual(date_of("date={198X}"), Date("between", Datetime(1980), Datetime(1989)))
        self.assertEqual(date_of("date={19XX}"), Date("between", Datetime(1900), Datetime(1999)))
        self.assertEqual(date_of("date={1999-XX}"), Date("between", Datetime(1999, 1), Datetime(1999, 12)))
        self.assertEqual(date_of("date={1999-01-XX}"), Date("between", Datetime(1999, 1, 1), Datetime(1999, 1, 31)))

    def test_times(self) -> None:
        self.assertEqual(date_of("date={2020-04-04T18:30:31}"), Date("at", Datetime(2020, 4, 4, Time(18, 30, 31))))
        self.assertEqual(date_of("date={2020-04-04T18:30:31Z}"), Date("at", Datetime(2020, 4, 4, Time(18, 30, 31, 0))))
        self.assertEqual(date_of("date={2020-04-04T18:30:31-01:30}"), Date("at", Datetime(2020, 4, 4, Time(18, 30, 31, -90))))

    def test_what_is_no_date(self) -> None:
        for text in ("2020-02-30", "soon", "2020-13", ""):
            self.assertIsNone(date_of("date={" + text + "}"))
        self.assertIsNone(date_of("title={T}"))
        with self.assertRaises(ValueError):
            date_of("title={T}", "title")

    def test_seasons_are_dates_of_csl_alone(self) -> None:
        bibliography = biblatex.parse("@misc{k, date={2001-21}}")
        self.assertIsNone(bibliography["k"].date())
        self.assertEqual(bibliography.to_csl()[0]["issued"], {"date-parts": [[2001]], "season": 1})

    def test_year_month_and_day(self) -> None:
        self.assertEqual(date_of("year={1937}, month=sep, day={21}"), Date("at", Datetime(1937, 9, 21)))
        self.assertEqual(date_of("year=1937, month={9}"), Date("at", Datetime(1937, 9)))
        self.assertEqual(date_of("year={1937}, month=sep # { 21}"), Date("at", Datetime(1937, 9, 21)))
        self.assertEqual(date_of("year={1937}, month={Sommer}"), Date("at", Datetime(1937)))

    def test_years_before_the_common_era(self) -> None:
        self.assertEqual(date_of("year={44 BC}, month=mar, day=15"), Date("at", Datetime(-43, 3, 15)))
        self.assertEqual(date_of("year={1 BC}"), Date("at", Datetime(0)))
        self.assertEqual(date_of("year={14 AD}"), Date("at", Datetime(14)))

    def test_year_month_and_day_that_are_no_date(self) -> None:
        for fields in ("year={soon}", "year={1937}, month={13}", "year={1937}, month=sep, day={32}", "year={0 AD}", "month=sep"):
            self.assertIsNone(date_of(fields))

    def test_the_field_counts_before_its_parts(self) -> None:
        self.assertEqual(date_of("date={1938}, year={1937}"), Date("at", Datetime(1938)))
        self.assertIsNone(date_of("date={soon}, year={1937}"))

    def test_entries_of_the_type_xdata(self) -> None:
        self.assertEqual(only("@xdata{x, date={1999}}").date(), Date("at", Datetime(1999)))
        self.assertIsNone(only("@xdata{x, year={1999}}").date())

    def test_other_dates(self) -> None:
        self.assertEqual(date_of("urldate={2020-05-01}", "urldate"), Date("at", Datetime(2020, 5, 1)))
        self.assertEqual(date_of("urlyear={2020}, urlmonth={5}, year={1999}", "urldate"), Date("at", Datetime(2020, 5)))
        self.assertEqual(date_of("eventyear={2021}", "eventdate"), Date("at", Datetime(2021)))
        self.assertEqual(date_of("origyear={1790}", "origdate"), Date("at", Datetime(1790)))
        self.assertIsNone(date_of("urlyear={2020}"))

    def test_the_year(self) -> None:
        for text, year in (("1984-05", 1984), ("1984/1990", 1984), ("../1990", 1990), ("-0031", -31)):
            date = date_of("date={" + text + "}")
            assert date is not None
            self.assertEqual(date.year, year)

    def test_what_is_shown(self) -> None:
        for text in ("1984", "1984-05", "1984-05-01", "0800/0814", "-0031-07", "1984/..", "../1990", "1984?", "1984~", "1984%", "1984-05-01T10:20:30+01:00", "1984-05-01T10:20:30Z"):
            self.assertEqual(str(date_of("date={" + text + "}")), text)


class OtherValues(unittest.TestCase):
    def value(self, name: str, text: str) -> Optional[biblatex.Value]:
        return only("@misc{k, " + name + "={" + text + "}}").value(name)

    def test_pages(self) -> None:
        pages = biblatex.PageRange
        self.assertEqual(self.value("pages", "31--43, 52"), [pages(31, 43), pages(52, 52)])
        self.assertIsNone(self.value("pages", "iv--x"))
        self.assertEqual((str(pages(31, 43)), str(pages(52, 52))), ("31--43", "52"))

    def test_numbers(self) -> None:
        self.assertEqual([self.value("volume", text) for text in ("7", "IV", "-7", "two")], [7, 4, -7, None])
        self.assertEqual([self.value("edition", text) for text in ("2", "second")], [2, None])

    def test_lists(self) -> None:
        self.assertEqual(self.value("keywords", "a b, c,{d, e}"), ["a b", "c", "d, e"])
        self.assertEqual(self.value("publisher", "A and B, C and {D and E}"), ["A", "B, C", "D and E"])
        self.assertEqual(self.value("language", "english and klingon"), ["American English", "klingon"])

    def test_words(self) -> None:
        self.assertEqual(self.value("langid", "greek"), "Greek")
        self.assertEqual(self.value("pagination", "Column"), "column")
        self.assertEqual(self.value("editortype", "Compiler"), "compiler")
        self.assertEqual(self.value("gender", "PN"), "PluralNeuter")
        self.assertIsNone(self.value("gender", "x"))

    def test_dates(self) -> None:
        self.assertEqual(self.value("date", "1984-05"), Date("at", Datetime(1984, 5)))
        self.assertIsNone(self.value("year", "1984"))

    def test_fields_without_a_type(self) -> None:
        self.assertIsNone(self.value("title", "T"))
        self.assertIsNone(only("@misc{k,}").value("pages"))


if __name__ == "__main__":
    unittest.main()
