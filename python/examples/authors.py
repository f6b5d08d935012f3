"""Prints the works of each author, with their years. Usage: authors.py FILE"""

import sys
from collections import defaultdict
from pathlib import Path

import biblatex


def works(text: str) -> dict[str, list[tuple[str, str]]]:
    """Returns the works of each author, as pairs of a year and a title."""
    found = defaultdict(list)
    for entry in biblatex.parse(text).entries:
        date = entry.date()
        work = (str(date.year) if date else "", entry.get("title", ""))
        for person in entry.people("author"):
            family = f"{person.prefix} {person.name}".strip()
            found[", ".join(filter(None, (family, person.suffix, person.given)))].append(work)
    return found


if __name__ == "__main__":
    for author, listed in sorted(works(Path(sys.argv[1]).read_text("utf-8")).items()):
        print(author)
        for year, title in sorted(listed):
            print(f"    {year:4} {title}")
