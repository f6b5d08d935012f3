#!/usr/bin/env python3
"""Draws the picture of README.md: picture.py NUMBERS.json > docs/peers.svg, from what bench/real.py --json wrote.

For each program a bar shows the share of the entries of real files that it keeps. Beside it are the number of files of which it keeps
all entries, and the processor seconds for all files.
"""
import json
import sys

WIDTH, ROW, LEFT, RIGHT, TOP = 760, 26, 120, 270, 58
OWN = ("bibkit", "bib")


def text(x, y, said, size=13, anchor="start", weight="normal", fill="#24292f"):
    return (f'<text x="{x}" y="{y}" font-size="{size}" text-anchor="{anchor}" font-weight="{weight}" fill="{fill}">{said}</text>')


def main(words):
    numbers = json.loads(open(words[0], encoding="utf-8").read())
    rows = sorted(numbers["programs"], key=lambda it: -it["kept"])
    height = TOP + ROW * len(rows) + 16
    bar = WIDTH - LEFT - RIGHT
    out = [
        f'<svg xmlns="http://www.w3.org/2000/svg" width="{WIDTH}" height="{height}" viewBox="0 0 {WIDTH} {height}" '
        'font-family="Helvetica, Arial, sans-serif" role="img">',
        "<title>Entries of real files that each program keeps</title>",
        f'<rect width="{WIDTH}" height="{height}" fill="#ffffff"/>',
        text(16, 24, f"Entries kept of {numbers['entries']:,} in {numbers['files']} real files", 15, weight="bold"),
        text(WIDTH - 16, 24, "seconds", 13, "end", fill="#57606a"),
        text(WIDTH - 96, 24, "files kept whole", 13, "end", fill="#57606a"),
    ]
    for index, row in enumerate(rows):
        y = TOP + ROW * index
        own = row["program"] in OWN
        length = bar * row["kept"]
        out.append(text(LEFT - 10, y + 5, row["program"], 13, "end", "bold" if own else "normal"))
        out.append(f'<rect x="{LEFT}" y="{y - 9}" width="{bar}" height="17" rx="2" fill="#eaeef2"/>')
        out.append(f'<rect x="{LEFT}" y="{y - 9}" width="{length:.1f}" height="17" rx="2" fill="{"#0969da" if own else "#8c959f"}"/>')
        out.append(text(LEFT + bar + 10, y + 5, f"{100 * row['kept']:.2f} %", 13))
        out.append(text(WIDTH - 96, y + 5, str(row["whole"]), 13, "end"))
        out.append(text(WIDTH - 16, y + 5, f"{row['seconds']:,.0f} s" if row["seconds"] >= 10 else f"{row['seconds']:.1f} s", 13, "end"))
    out.append("</svg>")
    print("\n".join(out))


if __name__ == "__main__":
    main(sys.argv[1:])
