"""The known names of fields that another known name resembles: at most two typing errors tell them apart. `lint --fix` renames no field
that may mean either.

The rule is that of `strsim::osa_distance`: a typing error is a character that is added, missing, wrong or swapped with the next one.
"""
import itertools
import re


def distance(name, other):
    """The number of typing errors between two names."""
    rows = [list(range(len(other) + 1))]
    for i, letter in enumerate(name, 1):
        row = [i]
        for j, one in enumerate(other, 1):
            row.append(min(rows[-1][j] + 1, row[-1] + 1, rows[-1][j - 1] + (letter != one)))
            if i > 1 and j > 1 and letter == other[j - 2] and name[i - 2] == one:
                row[-1] = min(row[-1], rows[-2][j - 2] + 1)
        rows.append(row)
    return rows[-1][-1]


def listed(text, table):
    """The names in the table of a file with this name."""
    body = re.search(rf"static {table}: \[&str; \d+\] = \[(.*?)\];", text, re.S)[1]
    return re.findall(r'"(.*?)"', body)


def similar(names):
    """The names in order that another one of them resembles."""
    found = set()
    for name, other in itertools.combinations(sorted(names), 2):
        if abs(len(name) - len(other)) <= 2 and distance(name, other) <= 2:
            found |= {name, other}
    return sorted(found)
