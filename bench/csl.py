#!/usr/bin/env python3
"""Compares the items of `bibkit convert --to csl` with those of `pandoc -f biblatex -t csljson`, and checks them by rules that stand
here, after the schema of CSL-JSON: csl.py BIBKIT FILE.. It prints how many items differ in which variable, with some examples, and each item that breaks a rule."""
import collections
import json
import re
import subprocess
import sys

TYPES = set("""article article-journal article-magazine article-newspaper bill book broadcast chapter classic collection dataset document entry
entry-dictionary entry-encyclopedia event figure graphic hearing interview legal_case legislation manuscript map motion_picture musical_score
pamphlet paper-conference patent performance periodical personal_communication post post-weblog regulation report review review-book software
song speech standard thesis treaty webpage""".split())
NAMES = set("""author chair collection-editor compiler composer container-author contributor curator director editor editorial-director
executive-producer guest host interviewer illustrator narrator organizer original-author performer producer recipient reviewed-author
script-writer series-creator translator""".split())
DATES = {"accessed", "available-date", "event-date", "issued", "original-date", "submitted"}
TEXTS = set("""abstract annote archive archive_collection archive_location archive-place authority call-number citation-key citation-label
citation-number collection-title container-title container-title-short dimensions division DOI event-title event-place event genre ISBN ISSN
journalAbbreviation jurisdiction keyword language license medium note original-publisher original-publisher-place original-title part-title PMCID
PMID publisher publisher-place references reviewed-genre reviewed-title scale section source status title title-short URL version volume-title
year-suffix collection-title-short shortTitle""".split())
NUMBERS = set("""chapter-number citation-number collection-number edition first-reference-note-number issue locator number number-of-pages
number-of-volumes page page-first part-number printing-number supplement-number volume""".split())
NAME_PARTS = {"family", "given", "dropping-particle", "non-dropping-particle", "suffix", "comma-suffix", "static-ordering", "literal", "parse-names"}
DATE_PARTS = {"date-parts", "season", "circa", "literal", "raw"}


def is_name(name):
    return isinstance(name, dict) and name and set(name) <= NAME_PARTS and all(isinstance(part, (str, bool)) for part in name.values())


def is_date(date):
    if not isinstance(date, dict) or not set(date) <= DATE_PARTS or not date:
        return False
    sides = date.get("date-parts", [[1]])
    return 1 <= len(sides) <= 2 and all(1 <= len(side) <= 3 and all(isinstance(part, int) for part in side) for side in sides)


def broken_rules(item):
    """Returns what is wrong with an item."""
    if item.get("type") not in TYPES:
        yield f"type {item.get('type')}"
    if not isinstance(item.get("id"), str):
        yield "id"
    for name, value in item.items():
        if name in ("id", "type"):
            continue
        if name in NAMES:
            fits = isinstance(value, list) and all(is_name(one) for one in value)
        elif name in DATES:
            fits = is_date(value)
        else:
            fits = name in TEXTS | NUMBERS and isinstance(value, str)
        if not fits:
            yield f"{name}: {value!r}"


def items(words, file):
    done = subprocess.run([*words, file], capture_output=True, timeout=120)
    if done.returncode:
        return None
    found = {}
    for item in json.loads(done.stdout):
        found.setdefault(item["id"], item)
    return found


def main():
    program, files = sys.argv[1], sys.argv[2:]
    counts, examples, broken, compared, same = collections.Counter(), {}, 0, 0, 0
    for file in files:
        ours = items([program, "convert", "--to", "csl"], file)
        if ours is None:
            continue
        for item in ours.values():
            for rule in broken_rules(item):
                broken += 1
                print(f"{file}: {item['id']}: breaks a rule: {rule}")
        theirs = items(["pandoc", "-f", "biblatex", "-t", "csljson"], file)
        if theirs is None:
            continue
        for key in sorted(ours.keys() & theirs.keys()):
            compared += 1
            one, other = ours[key], theirs[key]
            differ = [name for name in sorted(one.keys() | other.keys()) if one.get(name) != other.get(name)]
            same += not differ
            for name in differ:
                counts[name] += 1
                examples.setdefault(name, []).append((file, key, one.get(name), other.get(name)))
    print(f"items: {compared} compared, {same} the same, {broken} rules broken")
    for name, count in counts.most_common():
        print(f"{count:6} {name}")
        for file, key, one, other in examples[name][:: max(1, len(examples[name]) // 4)][:4]:
            print(f"         {re.sub('.*/', '', file)} {key}\n           ours  {json.dumps(one, ensure_ascii=False)}\n           other {json.dumps(other, ensure_ascii=False)}")
    return bool(broken)


if __name__ == "__main__":
    sys.exit(main())
