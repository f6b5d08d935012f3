"""Prints the works of each author like authors.py, with pybtex. Usage: with_pybtex.py FILE"""

import sys
from collections import defaultdict
from pathlib import Path

from pybtex.database import parse_string
from pybtex.richtext import Text


def works(text: str) -> dict[str, list[tuple[str, str]]]:
    """Returns the works of each author, as pairs of a year and a title."""
    found = defaultdict(list)
    for entry in parse_string(text, "bibtex").entries.values():
        work = (entry.fields.get("year", ""), str(Text.from_latex(entry.fields.get("title", ""))))
        for person in entry.persons.get("author", []):
            family = " ".join(map(str, person.rich_prelast_names + person.rich_last_names))
            given = " ".join(map(str, person.rich_first_names + person.rich_middle_names))
            suffix = " ".join(map(str, person.rich_lineage_names))
            found[", ".join(filter(None, (family, suffix, given)))].append(work)
    return found


if __name__ == "__main__":
    for author, listed in sorted(works(Path(sys.argv[1]).read_text("utf-8")).items()):
        print(author)
        for year, title in sorted(listed):
            print(f"    {year:4} {title}")
