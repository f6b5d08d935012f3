#!/usr/bin/env python3
"""Runs a built `bibkit` as git's merge driver: tests/git.py PROGRAM

Each case is a new repository with the settings that `PROGRAM merge --install` prints. Two branches change one file, and git merges them.
The file must have the expected text, and git must report a conflict exactly if there is one. If `bibkit` refuses a version, the
expected text is that of `git merge-file`. The status is 1 if a case fails.
"""
import os
import pathlib
import subprocess
import sys
import tempfile

BASE = """@string{jsl = {J. Symbolic Logic}}

@book{knuth1984,
  author = {Knuth, Donald E.},
  title = {The TeXbook},
  year = {1984},
}
"""
TURING = "@article{turing1936,\n  author = {Turing, Alan},\n  year = {1936},\n}\n"
POST = "@article{post1936,\n  author = {Post, Emil},\n  year = {1936},\n}\n"
AUTHOR = BASE.replace("Donald E.", "Don")
TITLE = BASE.replace("The TeXbook", "The {TeX}book")
EARLY = BASE.replace("1984},", "1983},")
YEAR = BASE.replace("1984},", "1986},")
BOTH = TITLE.replace("1984},", "1986},")
YEARS = "<<<<<<< ours\n  year = {1983},\n=======\n  year = {1986},\n>>>>>>> theirs\n"
CONFLICT = BASE.replace("  year = {1984},\n", YEARS)
INDENTED = BASE.replace("\n  ", "\n    ")
ISBN = BASE.replace("  year", "  isbn = {0201134489},\n  year")
UNTITLED = BASE.replace("  title = {The TeXbook},\n", "")
LATER = TURING.replace("1936},", "1937},")
RENAMED = BASE.replace("knuth1984", "knuth:tex")
RENAMED_YEAR = RENAMED.replace("1984},", "1986},")
CHAPTER = "@inbook{ch3,\n  crossref = {knuth1984},\n}\n"
RENAMED_CHAPTER = CHAPTER.replace("knuth1984", "knuth:tex")
CHURCH_CHAPTER = CHAPTER.replace("knuth1984", "church1936")
JSL = "@string{jsl = {J. Symbolic Logic}}\n"
CHURCH = "@article{church1936,\n  author = {Church, Alonzo},\n  journal = jsl,\n}\n"
TIMED = BASE.replace("  year", "  timestamp = {2016.05.01},\n  year")
TIMED_TITLE = TIMED.replace("05.01", "05.03").replace("Donald E.", "Don")
TIMED_YEAR = TIMED.replace("05.01", "05.02").replace("1984}", "1986}")
UNSORTED = "@book{b,\n  year = 2,\n}\n\n@book{a,\n  year = 1,\n}\n"
SORTED = "@book{a,\n  year = 1,\n}\n\n@book{b,\n  year = 2,\n}\n"


# The name of a case; the base, ours and theirs; the merged text; whether it has a conflict.
MERGES = [
    ("both sides add an entry", BASE, BASE + "\n" + TURING, BASE + "\n" + POST, BASE + "\n" + TURING + "\n" + POST, False),
    ("changed fields next to each other", BASE, TITLE, YEAR, BOTH, False),
    ("one field changed in two ways", BASE, EARLY, YEAR, CONFLICT, True),
    ("one side changes the layout", BASE, INDENTED, YEAR, INDENTED.replace("1984},", "1986},"), False),
    ("one side adds a field", BASE, ISBN, YEAR, ISBN.replace("1984},", "1986},"), False),
    ("one side removes a field", BASE, UNTITLED, YEAR, UNTITLED.replace("1984},", "1986},"), False),
    ("an entry is removed and changed", BASE + "\n" + TURING, BASE, BASE + "\n" + LATER,
     BASE + "\n<<<<<<< ours\n=======\n" + LATER + ">>>>>>> theirs\n", True),
    ("one side sorts the entries", UNSORTED, SORTED, UNSORTED.replace("year = 1", "year = 3"), SORTED.replace("year = 1", "year = 3"), False),
    ("line ends of CR LF", *(text.replace("\n", "\r\n") for text in (BASE, TITLE, YEAR, BOTH)), False),
    ("both sides add the same entry", BASE, BASE + "\n" + TURING, YEAR + "\n" + TURING, YEAR + "\n" + TURING, False),
    ("an entry is renamed, and a field of it changed", BASE, RENAMED, YEAR, RENAMED_YEAR, False),
    ("an entry is renamed, and a reference to it added", BASE, RENAMED, CHAPTER + "\n" + BASE, RENAMED_CHAPTER + "\n" + RENAMED, False),
    ("both sides rename an entry in the same way", BASE, RENAMED, RENAMED_YEAR, RENAMED_YEAR, False),
    ("an abbreviation is removed and used", BASE, BASE.replace(JSL + "\n", ""), BASE + "\n" + CHURCH,
     "<<<<<<< ours\n=======\n" + JSL + ">>>>>>> theirs\n" + BASE[len(JSL):] + "\n" + CHURCH, True),
    ("an entry is removed and referred to", BASE + "\n" + CHURCH, BASE, BASE + "\n" + CHURCH + "\n" + CHURCH_CHAPTER,
     BASE + "\n<<<<<<< ours\n=======\n" + CHURCH + ">>>>>>> theirs\n\n" + CHURCH_CHAPTER, True),
    ("both sides change the time of the last change", TIMED, TIMED_TITLE, TIMED_YEAR, TIMED_TITLE.replace("1984}", "1986}"), False),
]
# The name of a case; the base, ours and theirs. The program refuses one of them, and git merges the lines.
REFUSED = [
    ("a missing comma", BASE + "\n" + TURING, AUTHOR + "\n" + TURING, BASE + "\n" + TURING.replace("},\n}", "}\n  note = n\n}")),
    ("a missing comma and a conflict of lines", BASE, TITLE, YEAR.replace("TeXbook},", "TeXbook}")),
    ("markers of an earlier conflict", BASE + "\n" + TURING, CONFLICT + "\n" + TURING, BASE + "\n" + LATER),
    ("other bytes than UTF-8", BASE + "\n" + TURING, AUTHOR + "\n" + TURING, BASE + "\n" + LATER + "% \udcff\n"),
]


class Repository:
    """A new repository, whose merge driver is the program in the folder `bin`."""

    def __init__(self, bin):
        self.room = tempfile.TemporaryDirectory()
        self.folder = pathlib.Path(self.room.name)
        names = {"GIT_CONFIG_GLOBAL": "/dev/null", "GIT_CONFIG_NOSYSTEM": "1", "HOME": self.room.name, "LC_ALL": "C", "GIT_EDITOR": "true"}
        names |= {f"GIT_{who}_{what}": "a@example.org" for who in ("AUTHOR", "COMMITTER") for what in ("NAME", "EMAIL")}
        self.env = {**os.environ, **names, "PATH": f"{bin}:{os.environ['PATH']}"}
        self.git("init", "-q", "-b", "main")
        lines = subprocess.run(["bibkit", "merge", "--install"], env=self.env, stdout=subprocess.PIPE, check=True).stdout
        subprocess.run(["sh", "-e"], input=lines, cwd=self.folder, env=self.env, check=True)

    def git(self, *words):
        """Runs git, and returns its status and its output with all messages."""
        run = subprocess.run(["git", *words], cwd=self.folder, env=self.env, stdout=subprocess.PIPE, stderr=subprocess.STDOUT)
        return run.returncode, run.stdout.decode("utf-8", "replace")

    def commit(self, text, name="refs.bib"):
        """Commits this text of a file."""
        path = self.folder / name
        path.parent.mkdir(exist_ok=True)
        path.write_bytes(text.encode("utf-8", "surrogateescape"))
        self.git("add", "-A")
        self.git("commit", "-q", "-m", "change")

    def branches(self, base, ours, theirs, name="refs.bib"):
        """Commits the base, and each side on its branch: ours on `main`, theirs on `other`."""
        self.commit(base, name)
        self.git("checkout", "-q", "-b", "other")
        self.commit(theirs, name)
        self.git("checkout", "-q", "main")
        self.commit(ours, name)

    def text(self, name):
        return (self.folder / name).read_bytes().decode("utf-8", "surrogateescape")


class Cases:
    """Counts cases, and prints those that fail."""

    def __init__(self, bin):
        self.bin, self.count, self.failed = bin, 0, 0

    def check(self, name, found, expected):
        self.count += 1
        if found != expected:
            self.failed += 1
            print(f"FAILED: {name}\n  expected: {expected!r}\n  found:    {found!r}")

    def merge(self, it, name, merged, has_conflict, *words, file="refs.bib"):
        """Merges the branch `other`, tests the text of the file, and returns the output of git."""
        status, said = it.git("merge", "-q", "--no-edit", *words, "other")
        self.check(f"{name}: the conflict", status != 0, has_conflict)
        self.check(name, it.text(file), merged)
        return said


def test_rows(cases, how):
    """Each row, by `merge`, `cherry-pick` or `rebase`."""
    for name, base, ours, theirs, merged, has_conflict in MERGES:
        it = Repository(cases.bin)
        it.branches(base, ours, theirs)
        if how == "rebase":
            it.git("checkout", "-q", "other")
        words = {"merge": ["-q", "--no-edit", "other"], "cherry-pick": ["other"], "rebase": ["-q", "main"]}[how]
        status, _ = it.git(how, *words)
        cases.check(f"{name}: {how}: the conflict", status != 0, has_conflict)
        cases.check(f"{name}: {how}", it.text("refs.bib"), merged)


def lines_merged(it, base, ours, theirs):
    """Returns the text of `git merge-file` for these texts, and whether it has a conflict."""
    names = []
    for name, text in (("ours", ours), ("base", base), ("theirs", theirs)):
        path = it.folder / ".git" / name
        path.write_bytes(text.encode("utf-8", "surrogateescape"))
        names.append(str(path))
    words = ["git", "merge-file", "-p", "-L", "ours", "-L", "base", "-L", "theirs", *names]
    run = subprocess.run(words, env=it.env, stdout=subprocess.PIPE)
    return run.stdout.decode("utf-8", "surrogateescape"), run.returncode != 0


def test_refused(cases):
    """If the program refuses a version, git merges the lines."""
    for name, base, ours, theirs in REFUSED:
        it = Repository(cases.bin)
        it.branches(base, ours, theirs)
        said = cases.merge(it, name, *lines_merged(it, base, ours, theirs))
        cases.check(f"{name}: a message names the version", "refs.bib (" in said, True)


def test_missing(cases, it):
    """On a machine without the program, git merges the lines."""
    it.env["PATH"] = ":".join(path for path in it.env["PATH"].split(":") if not os.path.exists(f"{path}/bibkit"))
    it.branches(BASE, TITLE, YEAR)
    cases.merge(it, "a machine without the program", *lines_merged(it, BASE, TITLE, YEAR))


def test_resolved(cases, it):
    """A user resolves a conflict, and commits the merge."""
    it.branches(BASE, EARLY, YEAR)
    said = cases.merge(it, "a conflict", CONFLICT, True)
    cases.check("the message names the line and the field", "refs.bib:6: knuth1984: year: changed by both sides" in said, True)
    cases.check("git knows of the conflict", it.git("diff", "--name-only", "--diff-filter=U")[1], "refs.bib\n")
    it.commit(YEAR)
    cases.check("the merge has two parents", it.git("log", "-1", "--format=%P")[1].count(" "), 1)


def test_criss_cross(cases, it):
    """Two merges of the same branches with different results, and then a merge of both: no marker is in the base."""
    it.branches(BASE, EARLY, YEAR)
    it.git("branch", "early")
    cases.merge(it, "the first merge", CONFLICT, True)
    it.commit(EARLY.replace("Donald E.", "Don"))
    it.git("checkout", "-q", "other")
    it.git("merge", "-q", "--no-edit", "early")
    it.commit(YEAR.replace("The TeXbook", "The {TeX}book"))
    it.git("checkout", "-q", "main")
    expected = CONFLICT.replace("Donald E.", "Don").replace("The TeXbook", "The {TeX}book")
    cases.merge(it, "a criss-cross merge", expected, True)


def test_renamed(cases, it):
    """Theirs renames the file, and ours changes it."""
    it.branches(BASE, TITLE, YEAR)
    it.git("checkout", "-q", "other")
    it.git("mv", "refs.bib", "works.bib")
    it.git("commit", "-q", "-m", "rename")
    it.git("checkout", "-q", "main")
    cases.merge(it, "a renamed file", BOTH, False, file="works.bib")


def test_names(cases, it):
    """A file whose name has spaces, a quote and a folder."""
    name = "my papers/o'neill $x.bib"
    it.branches(BASE, EARLY, YEAR, name)
    said = cases.merge(it, "an unusual name", CONFLICT, True, file=name)
    cases.check("an unusual name in a message", f"{name}:6: knuth1984" in said, True)


def test_options(cases, it):
    """The attribute `conflict-marker-size` sets the number of signs. git doesn't pass `-X ours` to the driver."""
    (it.folder / ".gitattributes").write_text("*.bib merge=bibkit conflict-marker-size=9\n")
    it.branches(BASE, EARLY, YEAR)
    longer = CONFLICT.replace("<" * 7, "<" * 9).replace("=" * 7, "=" * 9).replace(">" * 7, ">" * 9)
    cases.merge(it, "marker lines of nine signs", longer, True, "-X", "ours")


def test_new_file(cases, it):
    """Both sides add the file."""
    it.commit("text\n", "README")
    it.git("checkout", "-q", "-b", "other")
    it.commit(BASE + "\n" + TURING)
    it.git("checkout", "-q", "main")
    it.commit(BASE)
    cases.merge(it, "both sides add the file", BASE + "\n" + TURING, False)


def test_revert_and_stash(cases, it):
    """`revert` and `stash pop` merge, too."""
    for text in (BASE, TITLE, BOTH):
        it.commit(text)
    it.git("revert", "--no-edit", "HEAD~1")
    cases.check("revert", it.text("refs.bib"), YEAR)
    (it.folder / "refs.bib").write_bytes(BOTH.encode())
    it.git("stash", "-q")
    it.commit(AUTHOR.replace("1984},", "1986},"))
    it.git("stash", "pop", "-q")
    cases.check("stash pop", it.text("refs.bib"), BOTH.replace("Donald E.", "Don"))


def main():
    with tempfile.TemporaryDirectory() as bin:
        os.symlink(os.path.abspath(sys.argv[1]), os.path.join(bin, "bibkit"))
        cases = Cases(bin)
        for how in ("merge", "cherry-pick", "rebase"):
            test_rows(cases, how)
        test_refused(cases)
        for test in (test_missing, test_resolved, test_criss_cross, test_renamed, test_names, test_options, test_new_file,
                     test_revert_and_stash):
            test(cases, Repository(bin))
    print(f"git: {cases.count - cases.failed} passed, {cases.failed} failed")
    return 1 if cases.failed else 0


if __name__ == "__main__":
    sys.exit(main())
