"""Prints the works of each author like authors.py, with bibtexparser 1. Usage: with_bibtexparser.py FILE"""

import sys
from collections import defaultdict
from pathlib import Path

import bibtexparser
from bibtexparser.bparser import BibTexParser
from bibtexparser.customization import getnames, splitname
from bibtexparser.latexenc import latex_to_unicode


def works(text: str) -> dict[str, list[tuple[str, str]]]:
    """Returns the works of each author, as pairs of a year and a title."""
    found = defaultdict(list)
    parser = BibTexParser(common_strings=True, ignore_nonstandard_types=False)
    for entry in bibtexparser.loads(text, parser).entries:
        work = (entry.get("year", ""), latex_to_unicode(entry.get("title", "")))
        for name in getnames(entry["author"].replace("\n", " ").split(" and ")) if "author" in entry else []:
            person = splitname(latex_to_unicode(name))
            family = " ".join(person["von"] + person["last"])
            found[", ".join(filter(None, (family, " ".join(person["jr"]), " ".join(person["first"]))))].append(work)
    return found


if __name__ == "__main__":
    for author, listed in sorted(works(Path(sys.argv[1]).read_text("utf-8")).items()):
        print(author)
        for year, title in sorted(listed):
            print(f"    {year:4} {title}")
