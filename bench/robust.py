#!/usr/bin/env python3
"""Runs a built `bib`, or the program of bench/recover.py, on hard inputs, with a stack of 256 kB, and looks at status, answer, time and
memory.

    bench/robust.py PROGRAM [WORD ..] [--rounds N]

With WORDs only the inputs whose names hold one of them are run. Each input is made in three sizes, and run in each of its
commands; a command that PROGRAM only says its usage for is left out. A line of the table is one input in one command: the
bytes of the largest input with its answer, the processor time (user and system, the least of N runs, and of more where that
is too slow, since other work slows runs down), the peak memory, and by which power of input and answer both grow from the
smallest size to the largest. An input passes where each run ends with the wanted status and answer, in time and memory
below a limit that is linear in input and answer, and neither power is above 1.05, or 1.25 where names in no order, or braces, have
to be sorted; `-` stands where a run is too short or too small to tell. The status of this script is 1 where an input failed.
"""
import argparse
import math
import os
import random
import resource
import subprocess
import sys
import tempfile

STACK = 256 * 1024
LINEAR, SORTED = 1.05, 1.25
# the limits: seconds, and bytes of memory, for each byte of input and answer, above what an empty run may take
SECONDS, SECONDS_FIRST = 1e-6, 0.5
MEMORY, MEMORY_FIRST = 64, 48 << 20
# what is too little to tell a power from
SHORT, SMALL = 0.1, 32 << 20
# how often a run is made again that is too slow, how slow one is that is not, and times that none is above
AGAIN, HOPELESS, LONG = 6, 10, [(0, math.inf, 0)] * 3
USAGE = 2


class Input:
    """A hard input: how its text of some size is made, in pieces, and what a run on it ends with."""

    def __init__(self, name, make, sizes, status=(0,), answer=None, words=("biblatex",), power=LINEAR):
        self.name, self.make, self.sizes, self.status = name, make, sizes, status
        self.answer, self.words, self.power = answer, words, power


def title(first, last="", middle="x"):
    """An entry with a title: an opening text so many times, a middle, and a closing text as often."""
    return lambda size: ["@misc{a, title={", first * size, middle, last * size, "}}"]


def listed(before, part, between, after):
    """Numbered parts with a text between them, between two others."""
    def make(size):
        yield before
        for n in range(size):
            yield (between if n else "") + part.format(n)
        yield after
    return make


def chain(first, line, after="", is_falling=False):
    """A first line and others that each name the one before, in rising or in falling order."""
    def make(size):
        lines = [first.format(size)] + [line.format(n - 1, n, n - 2) for n in range(1, size + 1)]
        yield from (it + "\n" for it in (reversed(lines) if is_falling else lines))
        yield after.format(size)
    return make


def star(size):
    """An entry that refers to many, each of which has a field of its own."""
    yield from (f"@xdata{{x{n}, f{n}={{v}}}}\n" for n in range(size))
    yield "@xdata{a, xdata={"
    yield ",".join(f"x{n}" for n in range(size))
    yield "}}"


def fields(size):
    """An entry with many fields, in no order."""
    yield "@misc{a"
    yield from (f", f{n * 7919 % size}={{v}}" for n in range(size))
    yield "}"


def long_date(size):
    """An entry whose month is long, and as many others, each a byte of it, that inherit its date."""
    yield "@book{p, year={2020}, month={" + " " * size + "5}}"
    yield from (f"@inbook{{x{n}, crossref={{p}}}}\n" for n in range(size))


def value(size):
    """A value of so many bytes."""
    return ["@misc{a, title={"] + ["some text " * 100_000] * (size // 1_000_000) + ["}}"]


def noise(characters):
    """Characters drawn at random."""
    def make(size):
        chance = random.Random(7)
        yield from ("".join(chance.choices(characters, k=1000)) for _ in range(size // 1000))
    return make


def is_line(text):
    """The answer has this line."""
    return lambda size, answer: f"\n{text}\n".encode() in b"\n" + answer


def begins(text):
    return lambda size, answer: answer.startswith(text.encode())


def has_length(length):
    """The answer has about so many bytes."""
    return lambda size, answer: length(size) <= len(answer) <= length(size) + 1000


def repeated(part, after=""):
    """A part so many times, and a text after it as often."""
    return lambda size: [part * size, after * size]


def counts(read, skipped):
    """The answer is how many entries are read, and how many blocks are passed over."""
    return lambda size, answer: answer == f"{read(size)} {skipped(size)}\n".encode()


MANY = (25_000, 50_000, 100_000)
TWICE = (50_000, 100_000, 200_000)
MILLION = (250_000, 500_000, 1_000_000)
ERRORS = (100_000, 200_000, 400_000)
ERROR = "error: unexpected end of file"
STRING, STRINGS, USE = "@string{{a0 = {{x}}}}", "@string{{a{1} = a{0}}}", "@misc{{k, title = a{}}}"
CROSSREF, XDATA = "@misc{{x{1}, crossref={{x{0}}}}}", "@xdata{{x{1}, xdata={{x{0}}}}}"
SIGNS = "@@@{{}},,==##\"\"%\\ \nabcdefé1"
ALL = "".join(map(chr, range(1, 0x3000)))
BOTH = ("keys", "biblatex")
RECOVER = ("recover",)
HEAD = "@misc{k, t={\n"
NONE, ALL_OF, TWO_OF = (lambda size: 0), (lambda size: size), (lambda size: 2 * size)
INPUTS = [
    Input("nothing", lambda size: [], (0, 0, 0), (0,), lambda size, answer: answer == b""),
    Input("braces that stay open", title("{"), MILLION, (1,), begins(ERROR)),
    Input("braces that are closed", title("{", "}"), (1 << 20, 1 << 21, 1 << 22), (0,), is_line("title = {{x}},")),
    Input("braces side by side", title("{}"), MILLION),
    Input("nested commands", title("\\emph{", "}"), MANY, (0,), has_length(lambda n: 10 * n)),
    Input("nested accents", title("\\'{", "}", "e"), MANY, (0,), has_length(lambda n: 2 * n)),
    Input("nested symbols", title("\\ae{", "}"), MANY, (0,), is_line("title = {æ},")),
    Input("commands side by side", title("\\emph{a}\\'e\\ss "), MANY),
    Input("texts after one another", title("{a}b$c$--"), MANY),
    Input("hyphens", title("-"), MILLION),
    Input("backslashes", title("\\\\"), MILLION, (0,), has_length(lambda n: 2 * n)),
    Input("abbreviations of abbreviations", chain(STRING, STRINGS, USE), MANY, (0,), is_line("title = {x},")),
    Input("abbreviations, the last first", chain(STRING, STRINGS, USE, True), MANY, (0,), is_line("title = {x},")),
    Input("a cycle after abbreviations", chain("@string{{a0 = a0}}", STRINGS, USE), MANY, (1,),
          begins('error: circular abbreviation "a0"')),
    Input("a cycle of abbreviations", chain("@string{{a0 = a{}}}", STRINGS, USE), MANY, (1,),
          begins("error: circular abbreviation")),
    Input("abbreviations that double", chain(STRING, "@string{{a{1} = a{0} # a{0}}}", USE), (22, 23, 24), (0,),
          has_length(lambda n: 1 << n)),
    Input("one name used again and again", listed("@string{s={t}} @misc{a, title=", "s", "#", "}"), TWICE, (0,),
          has_length(lambda n: n)),
    Input("references by crossref", chain("@misc{{x0, url={{u}}}}", CROSSREF), MANY),
    Input("references by xdata", chain("@xdata{{x0, isbn={{I}}}}", XDATA, "", True), MANY),
    Input("a cycle after references", chain("@misc{{x0, crossref={{x0}}}}", CROSSREF), MANY, (1,),
          begins('error: circular reference "x0"')),
    Input("a cycle of references", chain("@xdata{{x0, xdata={{x{}}}}}", XDATA), MANY, (1,),
          begins('error: circular reference "x0"')),
    Input("dates by references", chain("@book{{x0, year={{2020}}, month={{May}}}}", "@book{{x{1}, crossref={{x{0}}}}}"), MANY),
    Input("a ladder of references", chain("@xdata{{x0, isbn={{I}}}}", "@xdata{{x{1}, xdata={{x{0}, x{2}}}}}"), MANY),
    Input("a child of many parents", star, MANY, power=SORTED),
    Input("many children of a parent", listed("@book{p, publisher={P}, year={2020}}", "@inbook{{x{}, crossref={{p}}}}", "\n", ""),
          MANY),
    Input("a long date of many children", long_date, MANY),
    Input("fields of an entry", listed("@misc{a", ", f{:06}={{v}}", "", "}"), TWICE),
    Input("fields in no order", fields, TWICE, power=SORTED),
    Input("one field again and again", listed("@misc{a,", "f={{{}}}", ",", "}"), TWICE),
    Input("names of an entry", listed("@misc{a, ids={", "n{}", ",", "}}"), TWICE, power=SORTED),
    Input("people of an entry", listed("@book{a, author={", "Ann van Bell{}, Jr., Carl", " and ", "}}"), MANY, (0, 4),
          words=("biblatex", "check")),
    Input("ranges of an entry", listed("@book{a, pages={", "{0}--{0}", ",", "}}"), TWICE, (0, 4), words=("biblatex", "check")),
    Input("small entries", listed("", "@misc{{k{}, title={{T}}}}", "\n", ""), MANY, words=("keys", "biblatex", "bibtex", "settled")),
    Input("reports", listed("", "@article{{k{}, volume={{V}}, title={{T}}}}", "\n", ""), MANY, (4,), words=("check",)),
    Input("remarks", listed("", "% {}", "\n", ""), MANY, (0,), lambda size, answer: answer == b"", BOTH),
    Input("preambles", listed("", '@preamble{{"{}"}}', "", ""), MANY, (0,), lambda size, answer: answer == b"", BOTH),
    Input("a long value", value, (25_000_000, 50_000_000, 100_000_000), words=BOTH),
    Input("signs at random", noise(SIGNS), MILLION, (1,), begins("error: "), BOTH),
    Input("characters at random", noise(ALL), MILLION, (0, 1), None, BOTH),
    Input("bytes at random", lambda size: [random.Random(7).randbytes(size)], MILLION, (1,),
          begins("error: input is not UTF-8"), BOTH),
    Input("a file that is cut", listed("", "@article{{k{}, author={{Ann Bell and Carl Dee}}, year=2020}}", "\n",
                                       "\n@article{last, title = {On"), MANY, (1,), begins(ERROR), BOTH),
    Input("heads that stay open", repeated(HEAD), ERRORS, (0,), counts(NONE, ALL_OF), RECOVER),
    Input("heads closed before an error", repeated(HEAD, "} x\n"), ERRORS, (0,), counts(NONE, ALL_OF), RECOVER),
    Input("heads closed before remarks", repeated(HEAD, "},%"), ERRORS, (0,), counts(NONE, ALL_OF), RECOVER),
    Input("blocks in error", repeated("@misc{k t={x}}\n"), ERRORS, (0,), counts(NONE, ALL_OF), RECOVER),
    Input("each other block in error", repeated("@misc{k t={x}}\n@misc{k,}\n"), ERRORS, (0,), counts(ALL_OF, ALL_OF), RECOVER),
    Input("quotes and braces in turn", repeated('@misc{k, t="{\n@misc{k, t={"\n'), ERRORS, (0,), counts(NONE, TWO_OF), RECOVER,
          SORTED),
    Input("comments that stay open", repeated("@comment{x\n"), ERRORS, (0,), counts(NONE, ALL_OF), RECOVER),
    Input("remarks of one line", repeated("@misc{k,%\r"), ERRORS, (0,), counts(NONE, ALL_OF), RECOVER),
    Input("fields behind remarks", repeated('@misc{k, % ", % "\n x = "\n'), ERRORS, (0,), counts(NONE, ALL_OF), RECOVER),
    Input("strings behind remarks", repeated('@string{a=1, % ", % "\n x = "\n'), ERRORS, (0,), counts(NONE, ALL_OF), RECOVER),
    Input("at signs that begin lines", repeated("@\n"), (125_000, 250_000, 500_000), (0,), counts(NONE, ALL_OF), RECOVER),
]


def write(path, pieces):
    with open(path, "wb") as file:
        for piece in pieces:
            file.write(piece if isinstance(piece, bytes) else piece.encode())


def run(program, word, path, output):
    """The status, the seconds and the bytes of memory of one run; it is ended where it takes a minute."""
    def prepare():
        resource.setrlimit(resource.RLIMIT_STACK, (STACK, STACK))
        resource.setrlimit(resource.RLIMIT_CPU, (60, 60))
        resource.setrlimit(resource.RLIMIT_CORE, (0, 0))

    with open(path, "rb") as text:
        process = subprocess.Popen([program, word], stdin=text, stdout=output, preexec_fn=prepare)
        _, status, usage = os.wait4(process.pid, 0)
    return os.waitstatus_to_exitcode(status), usage.ru_utime + usage.ru_stime, usage.ru_maxrss * 1024


def measure(program, word, it, size, path):
    """What is wrong with the status and the answer at this size, and the bytes, the seconds and the memory of a run."""
    with tempfile.TemporaryFile() as output:
        status, seconds, memory = run(program, word, path, output)
        output.seek(0)
        answer = output.read()
    wrong = []
    if status not in it.status:
        wrong.append(f"status {status} at {size}")
    elif it.answer and not it.answer(size, answer):
        wrong.append(f"answers {answer[:40]!r} at {size}")
    return wrong, os.path.getsize(path) + len(answer), seconds, memory


def power(few, many, works, least):
    """By which power of the work a number grows, or None where it is too small to tell."""
    if many < least or few <= 0 or works[1] < 2 * works[0]:
        return None
    return math.log(many / few) / math.log(works[1] / works[0])


def judged(it, rows):
    """What is too much of the time and the memory that runs at the three sizes took, and the two powers."""
    (first, few, less), (last, many, more) = rows[0], rows[-1]
    powers = [power(few, many, (first, last), SHORT), power(less, more, (first, last), SMALL)]
    wrong = [f"{what} to the power {by:.2f}" for what, by in zip(("time", "memory"), powers) if by and by > it.power]
    for size, (work, seconds, memory) in zip(it.sizes, rows):
        wrong += [f"{seconds:.2f} s at {size}"] * (seconds > SECONDS_FIRST + SECONDS * work)
        wrong += [f"{memory >> 20} MB at {size}"] * (memory > MEMORY_FIRST + MEMORY * work)
    return wrong, powers


def examine(program, word, it, rounds, folder):
    """Runs an input in one command, and prints its line. Whether it passed."""
    paths = [os.path.join(folder, str(place)) for place in range(len(it.sizes))]
    for path, size in zip(paths, it.sizes):
        write(path, it.make(size))
    rows = LONG
    for turn in range(rounds * AGAIN):
        new = [measure(program, word, it, size, path) for size, path in zip(it.sizes, paths)]
        errors = [why for found, *_ in new for why in found]
        rows = [(work, min(seconds, before[1]), memory) for (_, work, seconds, memory), before in zip(new, rows)]
        slow, powers = judged(it, rows)
        if errors or rows[-1][1] > HOPELESS or turn + 1 >= rounds and not slow:
            break
    (last, seconds, memory), shown = rows[-1], ["-" if by is None else f"{by:.2f}" for by in powers]
    print(f"{it.name:<31} {word:<9} {last:>10} {seconds:>7.3f} {memory / 1e6:>6.1f} {shown[0]:>5} {shown[1]:>6}"
          f"  {'; '.join(errors + slow) or 'ok'}", flush=True)
    return not errors + slow


def refuses_output(program):
    """A closed output and a full disk: status 1. How many failed."""
    wrong = 0
    for name, how in (("a closed output", {"preexec_fn": lambda: os.close(1)}), ("a full disk", {"stdout": open("/dev/full", "wb")})):
        status = subprocess.run([program, "keys"], input=b"@article{test, author={A}}", **how).returncode
        print(f"{name:<31} keys       {'ok' if status == 1 else f'status {status}'}")
        wrong += status != 1
    return wrong


def main():
    options = argparse.ArgumentParser(description=__doc__, formatter_class=argparse.RawDescriptionHelpFormatter)
    options.add_argument("program")
    options.add_argument("words", nargs="*", metavar="WORD")
    options.add_argument("--rounds", type=int, default=3)
    chosen = options.parse_intermixed_args()
    program = os.path.abspath(chosen.program)
    absent = {word for word in ("keys", "biblatex", "bibtex", "check", "settled", "recover")
              if subprocess.run([program, word], input=b"", stdout=subprocess.DEVNULL).returncode == USAGE}
    print(f"{'input':<31} {'command':<9} {'bytes':>10} {'seconds':>7} {'MB':>6} {'time':>5} {'memory':>6}")
    failed = 0
    with tempfile.TemporaryDirectory() as folder:
        for it in INPUTS:
            if not chosen.words or any(word in it.name for word in chosen.words):
                failed += sum(not examine(program, word, it, chosen.rounds, folder) for word in it.words if word not in absent)
    if not chosen.words and "keys" not in absent:
        failed += refuses_output(program)
    if absent:
        print("left out: " + ", ".join(sorted(absent)))
    print(f"robust: {failed} failed" if failed else "robust: all passed")
    return 1 if failed else 0


if __name__ == "__main__":
    sys.exit(main())
