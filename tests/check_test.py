#!/usr/bin/env python3
"""Tests of scripts/check.py, with the files that it imports, and of scripts/out_of_memory.py.

Each rule of check.py gets a small tree in a temporary folder that keeps it, and changes of that tree, each of which it has to report.
out_of_memory.py gets wrong bodies, each of which it has to report, and right ones, of which it may report none.
"""
import contextlib
import io
import pathlib
import sys
import tempfile
import unittest
from unittest import mock

sys.path.insert(0, str(pathlib.Path(__file__).resolve().parent.parent / "scripts"))
import check
from clauses import CRATES
from out_of_memory import built

WRONG = {
    "a plain function": "fn f() -> Result<(), AllocError> {\n    Err(AllocError)\n}\n",
    "a test of a size": """
fn f(names: &[Text]) -> Result<(), AllocError>
    ensures { OnOk result (IsRight AllocError) }
{
    if names.len() > 1000 {
        return Err(AllocError);
    }
    Ok(())
}
""",
    "a variant in a reader": """
fn read(chunks: ChunksRef<'_>) -> Result<Date, TypeError> {
    Err(TypeError { span: 0..0, kind: TypeErrorKind::OutOfMemory })
}
""",
    "an imported variant": "fn f() -> Kind {\n    OutOfMemory\n}\n",
    "another error made into one": "fn f() -> Result<(), AllocError> {\n    g().map_err(|_| AllocError)?;\n    Ok(())\n}\n",
    "an error that is one made into another": "fn f() -> Result<(), ParseError> {\n    Err(ParseError::from(AllocError))\n}\n",
    "an arm of a match": "fn f(x: u8) -> Result<(), AllocError> {\n    match x {\n        0 => Err(AllocError),\n        _ => Ok(()),\n    }\n}\n",
    "an arm before another": "fn f(x: u8) -> Kind {\n    match x {\n        0 => Kind::OutOfMemory,\n        _ => Kind::Other,\n    }\n}\n",
    "an arm for another variant": "fn f(x: Kind) -> Kind {\n    match x {\n        Kind::Other => Kind::OutOfMemory,\n        x => x,\n    }\n}\n",
    "a split that isn't the one call": "fn f(e: TypeError) -> Result<(), AllocError> {\n    if e.kind == TypeErrorKind::OutOfMemory {\n        return Err(AllocError);\n    }\n    Ok(())\n}\n",
    "a value handed back": "fn f(chunks: Chunks) -> Result<(), SetError> {\n    let Ok(n) = u8::try_from(chunks.len()) else {\n        return Err(SetError { chunks });\n    };\n    Ok(())\n}\n",
    "a conversion from something else": "impl From<u8> for WriteError {\n    fn from(_number: u8) -> WriteError {\n        WriteError::OutOfMemory\n    }\n}\n",
    "a function that is given a result": "fn f(x: Result<(), AllocError>) -> Result<(), AllocError> {\n    Err(AllocError)\n}\n",
    "an io error": "fn f() -> io::Error {\n    io::Error::from(ErrorKind::OutOfMemory)\n}\n",
    "an io error of another kind": "fn f(e: io::Error) -> Result<(), AllocError> {\n    match e.kind() {\n        ErrorKind::Other => Err(AllocError),\n        _ => Ok(()),\n    }\n}\n",
    "an option": "fn f(x: Option<u8>) -> Result<u8, AllocError> {\n    x.ok_or(AllocError)\n}\n",
    "another name": "use std::alloc::{AllocError as Refused, Global};\n",
    "another name of the type": "type Refused = std::alloc::AllocError;\n",
    "a value in a test": "fn f() -> bool {\n    matches!(g(AllocError), Ok(_))\n}\n",
    "a split that is given a size": """
fn unless_out_of_memory(n: usize) -> Result<(), AllocError> {
    if n > 50_000_000 {
        return Err(AllocError);
    }
    Ok(())
}
""",
    "a split of a type that isn't an error": """
impl Names {
    fn unless_out_of_memory(&self) -> Result<(), AllocError> {
        match self.state {
            State::OutOfMemory => Err(AllocError),
            _ => Ok(()),
        }
    }
}
""",
    "a split that is given a size too": """
impl TypeError {
    fn unless_out_of_memory(self, n: usize) -> Result<TypeError, AllocError> {
        match n {
            0 => Ok(self),
            _ => Err(AllocError),
        }
    }
}
""",
    "another variant in a split": """
impl TypeError {
    fn unless_out_of_memory(self) -> Result<TypeError, AllocError> {
        match self.kind {
            TypeErrorKind::OutOfMemory => Err(AllocError),
            TypeErrorKind::InvalidNumber => Err(AllocError),
            _ => Ok(self),
        }
    }
}
""",
    "another variant beside it in a split": """
fn unless_out_of_memory(error: ReadError) -> Result<(), AllocError> {
    match error {
        ReadError::Unread | ReadError::OutOfMemory => Err(AllocError),
        _ => Ok(()),
    }
}
""",
    "a growth by the greatest size": """
fn f(alloc: Global, src: &str) -> Result<(), AllocError> {
    if src.len() > 50_000_000 {
        let _room: Vec<u8> = Vec::with_capacity(alloc, usize::MAX)?;
    }
    Ok(())
}
""",
    "a growth by a large number": "fn f(mut names: Vec<Text>) -> Result<(), AllocError> {\n    names.reserve(1_000_000_000_000)\n}\n",
    "a growth by a large constant": "const MANY: usize = 1_000_000_000_000;\n\nfn f(text: &mut String) -> Result<(), AllocError> {\n    text.reserve_exact(MANY)\n}\n",
    "a growth by an unknown constant": "fn f(text: &mut String) -> Result<(), AllocError> {\n    text.try_reserve(MANY)\n}\n",
    "a growth by a product": "fn f(text: &mut String, names: &[Text]) -> Result<(), AllocError> {\n    text.reserve(names.len() * 4096)\n}\n",
    "a growth by a call": "fn f(text: &mut String, names: &[Text]) -> Result<(), AllocError> {\n    text.reserve(names.len().saturating_mul(4096))\n}\n",
    "a growth by a shift": "fn f(alloc: Global, text: &str) -> Result<String, AllocError> {\n    text.repeat(alloc, text.len() << 40)\n}\n",
    "after a text with marks of a comment": "fn f() -> Result<(), AllocError> {\n    let _x = \"http://a\"; Err(AllocError)\n}\n",
}

RIGHT = {
    "conversions": """
impl From<AllocError> for TypeError {
    ghost from_gives = { λ _ error. error ≡ OutOfMemory };

    fn from(_error: AllocError) -> TypeError {
        TypeError { span: 0..0, kind: TypeErrorKind::OutOfMemory }
    }
}

impl<T: Drop> From<AllocFailed<T>> for TypeError {
    fn from(failed: AllocFailed<T>) -> TypeError {
        TypeError::from(AllocError::from(failed))
    }
}

impl From<SetError> for AllocError {
    fn from(_error: SetError) -> AllocError {
        AllocError
    }
}
""",
    "the splitting call": """
impl TypeError {
    pub fn unless_out_of_memory(self) -> Result<TypeError, AllocError>
        ensures err { OnErr result (self.kind ≡ OutOfMemory) }
    {
        match self.kind {
            TypeErrorKind::OutOfMemory => Err(AllocError),
            _ => Ok(self),
        }
    }
}
""",
    "passed on": """
use std::alloc::{AllocError, Global};
ghost use Rattle.bib_tables.specs.declared.type_error.TypeErrorKind.TheVariants.{OutOfMemory as Lacking};

/// An error. `OutOfMemory` is one.
pub enum Kind {
    OutOfMemory,
}

fn f(alloc: Global) -> Result<(), AllocError> {
    let made: Result<String, AllocError> = g(alloc, "AllocError");
    let e = e.unless_out_of_memory()?;
    made?;
    Ok(())
}
""",
    "patterns": """
fn f(e: &Kind) -> u8 {
    if let Err(AllocError) = g() {
        return 1;
    }
    if *e == Kind::OutOfMemory || matches!(e, Kind::Other | Kind::OutOfMemory) {
        return 2;
    }
    match h() {
        Err(AllocError) => 3,
        Err(SetError { chunks }) => 4,
        Err(Error { kind: Kind::OutOfMemory, .. }) => 5,
        Kind::Other | Kind::OutOfMemory if g().is_ok() => 6,
        Kind::OutOfMemory => 7,
    }
}
""",
    "a split of an error by reference": """
impl ParseError {
    pub fn unless_out_of_memory(&self) -> Result<(), AllocError> {
        match self.kind {
            ParseErrorKind::OutOfMemory => Err(AllocError),
            _ => Ok(()),
        }
    }
}
""",
    "splits of errors of other crates": """
fn unless_out_of_memory(error: ReplaceError) -> Result<ReplaceError, AllocError> {
    match error {
        ReplaceError::OutOfMemory => Err(AllocError),
        ReplaceError::NotReplaced(error) if error.kind() == ErrorKind::OutOfMemory => {
            Err(AllocError)
        }
        error => Ok(error),
    }
}

fn unless_out_of_memory(error: ConvertError) -> Result<ParseError, AllocError> {
    match error {
        ConvertError::File(file) => Ok(file),
        ConvertError::NotTaken | ConvertError::OutOfMemory => Err(AllocError),
    }
}
""",
    "usual sizes": """
const USUAL_LENGTH: usize = 1024;

fn reserve(&mut self, count: usize) -> Result<(), AllocError> {
    let mut names = Vec::with_capacity(*self.names.allocator(), raw.fields.len())?;
    names.reserve_exact(given.len().saturating_add(more))?;
    self.pairs.reserve(1)?;
    let mut out = Writer::new(Vec::with_capacity(alloc, USUAL_LENGTH)?);
    out.reserve(count)
}
""",
    "a copy": "fn clone(&self) -> Kind {\n    match self {\n        Kind::OutOfMemory => Kind::OutOfMemory,\n    }\n}\n",
    "an io error": "fn f() -> Result<(), AllocError> {\n    match g() {\n        Err(error) if error.kind() == ErrorKind::OutOfMemory => Err(AllocError),\n        _ => Ok(()),\n    }\n}\n",
    "a value handed back": "fn for_chunks(_error: AllocError, chunks: Chunks) -> SetError\n    ensures { result.chunks ≡ chunks }\n{\n    SetError { chunks }\n}\n",
}


SOURCE = "fn f() -> u8 {\n    1\n}\n\nfn g() -> u8 {\n    2\n}\n"
EDIT = "file: src/lib.rt\nold:     1\nnew:     3\n"
INDEX = "## Those of must-fail/\n\n- `f-is-three`: `f` is one; `value`\n\n## Those of wrong/\n\n- `g-is-three`: `g` is two; `value`\n"
EDITS = {
    "crates/a/src/lib.rt": SOURCE,
    "crates/a/must-fail/f-is-three.edit": EDIT,
    "crates/a/wrong/g-is-three.edit": "file: src/lib.rt\nold:     2\nnew:     3\n",
    "crates/a/wrong/INDEX.md": INDEX,
}
SPECS = {
    "crates/a/specs/Lib.antt": "pub mod Meanings\npub mod Steps\n",
    "crates/a/specs/Meanings.antt": "-- Meaning: numbers.\n\n-- Whether a number is one.\npub unfoldable IsOne : ℕ → Type 0\n",
    "crates/a/specs/Steps.antt": "-- Machinery: steps.\n\npub unfoldable IsStep : ℕ → Type 0\n",
    "crates/a/src/lib.rt": "ghost use Rattle.a.specs.Meanings.{IsOne};\n\npub fn f() -> u8\n    ensures one { IsOne result }\n{\n    1\n}\n",
}
CHARACTERS = {
    "crates/bib_text/specs/Characters.antt": "-- Meaning: characters.\n\ncomma = 44\nquote = 34\n",
    "crates/a/specs/Lists.antt": "-- Meaning: lists.\n\n-- Whether it is a comma.\npub unfoldable IsComma : ℕ → Type 0\nIsComma c = c == char.comma\n",
}
CALLED = {
    "crates/biblatex/src/lib.rt": "pub use bib_a::{Kept, made};\n",
    "crates/bib_a/src/lib.rt": "impl Kept {\n    pub fn copied(&self) -> Result<Kept, AllocError>\n        ensures { result ≡ self }\n    {\n        self.clone()\n    }\n}\n\n"
    "pub fn made(alloc: Global) -> Result<Kept, AllocError> {\n    Kept::new(alloc)\n}\n\nimpl Hidden {\n    pub fn untold(&self) -> Result<Hidden, AllocError> {\n        g()\n    }\n}\n",
    "tests/src/calls.rs": "fn f() {\n    let kept = made(alloc)?;\n    kept.copied()?;\n}\n",
}
SIMILAR = {
    "crates/bib_findings/src/names.rt": 'static KNOWN_FIELDS: [&str; 5] = [\n    "date", "day", "year", "yaers", "volume",\n];\n',
    "crates/bibkit_commands/src/misspellings.rt": 'static SIMILAR: [&str; 4] = [\n    "date", "day", "yaers", "year",\n];\n',
}
ROWS = {"tests/rows/a": "# keys\nkeys|x\nkeys|y", "tests/rows/a.stdout": "# keys\nkeys|x => a\nkeys|y => "}
EXAMPLE = "use biblatex::Bibliography;\n\nlet it = f(alloc)?;\nprintln!(rt; \"{}\", it)?;\n"
README = {
    "README.md": "# biblatex\n",
    "docs/LIBRARY.md": f"# The library\n\n```rust\n{EXAMPLE}```\n\nIt prints:\n\n```text\none\n```\n",
    "tests/src/bibliography_calls/first_example.rs": "fn reads() {\n    let it = f(alloc)?;\n    let line = format!(in alloc; \"{}\", it)?;\n    assert!(rt; line == \"one\");\n}\n",
}
DOCUMENTS = {
    "README.md": "See docs/USE.md, `check.py`, tests/ and the crate `bib_a`; each crates/NAME/src/lib.rt.\n",
    "docs/USE.md": "`bib_a::f` is in src/lib.rt; crates/NAME/out/a.txt is made.\n",
    "check.py": "",
    "tests/a.py": "",
    "crates/bib_a/src/lib.rt": "",
}
LAYERS = {
    "crates.txt": "# NAME: the crates that it uses.\n\n# Base\na: memchr\n\n# Library\nb: a\n",
    "crates/a/src/lib.rt": "//! Texts. They are short.\nuse memchr::find;\n",
    "crates/b/src/lib.rt": "//! Names\n//! of texts.\n//!\n//! More.\nuse a::one;\n",
}
TABLE = {
    "docs/CONTRIBUTING.md": "# Work\n\n| crate | what it is |\n|---|---|\n| **Base** | |\n| `a` | Texts. |\n"
    "| **Library** | |\n| `b` | Names of texts. |\n\nMore.\n",
    **LAYERS,
}
THEOREMS = {
    "docs/THEOREMS.md": "| word | meaning | file |\n|---|---|---|\n| `IsOne` | one | a/specs/Meanings.antt |\n\n| promise | call | clause |\n|---|---|---|\n"
    "| one | `a::f` | `one` |\n",
    **SPECS,
}
# the tables of docs/CSL.md and the definitions that they describe
TABLES = {
    file.relative_to(check.TOP).as_posix(): file.read_text()
    for file in [check.TOP / "docs" / "CSL.md", *(file for crate in CRATES for file in check.CRATES.glob(f"{crate}/specs/*.antt"))]
}
PROMISED = {}
for shown in [it for them in check.PROMISED.values() for it in them]:
    file, is_test, text = shown.partition(": ")
    if is_test:
        PROMISED[file] = PROMISED.get(file, "") + text + "\n"
    else:
        PROMISED["crates/" + file.replace("/", "/must-fail/") + ".edit"] = ""
KIND = """
/// Why.
#[derive(Debug, Clone)]
#[non_exhaustive]
pub enum Kind {
    /// First, `or_so`.
    First,
    /// Second.
    Second { place: usize },
}

impl Kind {
    /// Whether it is the first.
    pub fn is_first(&self) -> bool
        ensures { IsTrue result }
    {
        true
    }
}

impl fmt::Display for Kind {
    fn fmt<W: fmt::Write>(&self, f: &mut fmt::Formatter<W>) -> fmt::Result {
        match self {
            Kind::First => f.write_str("the first"),
            Kind::Second { place } => write!(f, "the {place}"),
        }
    }
}

impl fmt::Display for Vec<Kind> {
    fn fmt<W: fmt::Write>(&self, f: &mut fmt::Formatter<W>) -> fmt::Result {
        f.write_str("all")
    }
}
"""
GETTERS = """
impl Entry {
    /// The title.
    pub fn title(&self, alloc: Global) -> Result<ChunksRef<'_>, RetrievalError>
        ensures { GetsChunks self.now (codes "title") result }
    {
        self.chunks(alloc, "title")
    }

    /// The address, or else the location.
    pub fn address(&self, alloc: Global) -> Result<ChunksRef<'_>, RetrievalError>
        ensures { GetsEither self.now (codes "address") (codes "location") result }
    {
        self.chunks_of_either(alloc, "address", "location")
    }

    /// Sets the address.
    pub fn set_address(&mut self, chunks: Chunks) -> Result<Option<Chunks>, SetError>
        ensures { SetsChunks chunks (codes "address") self.old self.new result }
    {
        self.set("address", chunks)
    }

    /// Sets the title.
    pub fn set_title(&mut self, chunks: Chunks) -> Result<Option<Chunks>, SetError>
        ensures { SetsChunks chunks (codes "title") self.old self.new result }
    {
        self.set("title", chunks)
    }
}
"""
SURFACE = {
    "tests/surface.txt": "[names]\nenum Kind: First Second .place is_first\n\n[root]\nmod laws\n\n[getters]\ntitle title - Chunks\naddress address location Chunks\n\n[impls]\nKind: Display Clone non_exhaustive\nVec<Kind>: Display\n\n[texts]\nKind::First: the first\n",
    "crates.txt": "bib_entry:\nbiblatex: bib_entry\n",
    "crates/biblatex/src/lib.rt": "pub mod laws;\nmod other;\n\npub use bib_entry::Kind;\n",
    "crates/bib_entry/src/lib.rt": KIND + GETTERS,
    "docs/DIFFERENCES.md": "",
}


def changed(old, new, name="docs/CSL.md"):
    """A change of TABLES: the file with another text, which it has to have once."""
    assert TABLES[name].count(old) == 1, old
    return {name: TABLES[name].replace(old, new)}


# of each rule: the function, a tree that keeps it, and changes of that tree, each with a text that all errors of it have to contain
RULES = {
    "wrong bodies fit": (check.edits, EDITS, [
        ({"crates/a/src/lib.rt": SOURCE.replace("    1", "    7")}, "its text stands 0 times"),
        ({"crates/a/src/lib.rt": SOURCE + "\nfn h() -> u8 {\n    1\n}\n"}, "its text stands 2 times"),
        ({"crates/a/must-fail/f-is-three.edit": EDIT.replace("lib.rt", "none.rt")}, "its text stands 0 times"),
        ({"crates/a/must-fail/f-is-three.edit": "file: src/lib.rt\n"}, "it changes nothing"),
        ({"crates/a/must-fail/f-is-three.edit": EDIT + "old:     1\nnew:     4\n"}, "its text stands 0 times"),
        ({"crates/a/wrong/F_is_three.edit": EDIT}, "its name is not words in lowercase"),
        ({"crates/a/wrong/f-is-three.edit": EDIT}, "another wrong body has this name"),
        ({"crates/b/src/lib.rt": SOURCE, "crates/b/wrong/f-is-three.edit": EDIT}, "another wrong body has this name"),
    ]),
    "wrong bodies are in an index": (check.check_indexes, EDITS, [
        ({"crates/a/must-fail/another.edit": EDIT}, "it doesn't name must-fail/another"),
        ({"crates/a/wrong/another.edit": EDIT}, "it doesn't name wrong/another"),
        ({"crates/a/wrong/INDEX.md": INDEX + "- `none`: `f` is one; `value`\n"}, "it names wrong/none, which isn't there once"),
        ({"crates/a/wrong/INDEX.md": INDEX + "- `g-is-three`: `g` is two; `value`\n"}, "it names wrong/g-is-three, which isn't there once"),
        ({"crates/a/wrong/INDEX.md": INDEX.replace("two; `value`", "two")}, "it doesn't say what it breaks; and which clause"),
    ]),
    "wrong bodies that promises name are tried": (check.check_promised, PROMISED, [
        ({"crates/bib_syntax/must-fail/raw-piece-trimmed.edit": None}, "it lacks raw-piece-trimmed.edit"),
        ({"tests/rows/contents.stdout": None}, "which shows that it is wrong if empty chunks are dropped"),
        ({"tests/rows/contents.stdout": "title|a{}b => N<a>N<b>"}, "which shows that it is wrong if empty chunks are dropped"),
    ]),
    "comments have names in backticks": (check.check_comments, SPECS, [
        ({"crates/a/src/more.rt": "// The array_elements of an array.\nfn f() {}\n"}, "line 1 has a name outside of backticks"),
        ({"crates/a/proofs/Facts.antt": "-- `one_place`, and member_with a name\n"}, "line 1 has a name outside of backticks"),
    ]),
    "public names and texts are those of a list": (check.check_surface, SURFACE, [
        ({"crates/biblatex/src/lib.rt": "pub mod laws;\n"}, "`Kind` is not exported"),
        ({"crates/biblatex/src/lib.rt": "pub use bib_entry::Kind;\n"}, "has no `pub mod laws`"),
        ({"crates/biblatex/src/lib.rt": "pub mod laws;\npub mod other;\npub use bib_entry::Kind;\n"}, "has `pub mod other`, which surface.txt"),
        ({"crates/biblatex/src/lib.rt": "pub mod laws;\npub use bib_entry::Kind;\npub fn other() {}\n"}, "has `pub fn other`, which surface.txt"),
        ({"crates/bib_entry/src/lib.rt": KIND.replace("Debug, Clone", "Debug") + GETTERS}, "`Kind` has no impl of `Clone`"),
        ({"crates/bib_entry/src/lib.rt": KIND.replace("#[non_exhaustive]\n", "") + GETTERS}, "`Kind` has no impl of `non_exhaustive`"),
        ({"crates/bib_entry/src/lib.rt": KIND.replace("for Vec<Kind>", "for Vec<Other>") + GETTERS}, "`Vec<Kind>` has no impl of `Display`"),
        ({"crates/bib_entry/src/lib.rt": GETTERS}, "Kind"),
        ({"crates/bib_entry/src/lib.rt": KIND.replace("is_first", "is_one") + GETTERS}, "`Kind"),
        ({"crates/bib_entry/src/lib.rt": KIND.replace("place: usize", "at: usize") + GETTERS}, "`Kind"),
        ({"crates/bib_entry/src/lib.rt": KIND.replace("the first\"", "a first\"") + GETTERS}, "`Kind::First` prints"),
        ({"crates/bib_entry/src/lib.rt": KIND + GETTERS.replace("pub fn title", "pub fn heading")}, "`Entry::title` is missing"),
        ({"crates/bib_entry/src/lib.rt": KIND + GETTERS.replace("pub fn set_title", "pub fn set_heading")}, "`Entry::set_title` is missing"),
        ({"crates/bib_entry/src/lib.rt": KIND + GETTERS.replace('codes "title"', 'codes "note"')}, "and not `title`"),
        ({"crates/bib_entry/src/lib.rt": KIND + GETTERS.replace('(codes "address") (codes "location")', '(codes "location") (codes "address")')}, "and then `location`"),
        ({"crates/bib_entry/src/lib.rt": KIND + GETTERS.replace("ChunksRef<'_>", "String")}, "returns `String`, and not `Chunks`"),
        ({"crates/bib_entry/src/lib.rt": KIND + GETTERS.replace("chunks: Chunks", "chunks: &Chunks")}, "takes `&Chunks`, and not `Chunks`"),
        ({"crates/bib_entry/src/lib.rt": KIND.replace("impl fmt::Display for Kind", "impl Kind") + GETTERS}, "`Kind"),
        ({"tests/surface.txt": SURFACE["tests/surface.txt"].replace(" is_first", "")}, "`Kind::is_first` is public, and neither"),
    ]),
    "words of contracts have comments": (check.check_definitions, SPECS, [
        ({"crates/a/specs/Meanings.antt": SPECS["crates/a/specs/Meanings.antt"].replace("-- Whether a number is one.\n", "")}, "it cites IsOne, which has no comment"),
        ({"crates/a/src/lib.rt": SPECS["crates/a/src/lib.rt"].replace("Meanings.{IsOne}", "Steps.{IsStep}").replace("IsOne", "IsStep")}, "it cites IsStep, which has no comment"),
        ({"crates/a/src/lib.rt": SPECS["crates/a/src/lib.rt"].replace("Meanings.{IsOne}", "Steps.{IsStep as IsOne}")}, "it cites IsStep, which has no comment"),
    ]),
    "files of specs/ begin with what they are": (check.check_specs, SPECS, [
        ({"crates/a/specs/Steps.antt": "-- Steps.\n"}, "its first line doesn't say whether it is meaning or machinery"),
    ]),
    "a word is defined in one file": (check.check_words, SPECS, [
        ({"crates/a/specs/Steps.antt": "-- Machinery: steps.\n\npub opaque IsOne : ℕ → Type 0\n"}, "IsOne is defined in a/specs/Meanings.antt too"),
        ({"crates/b/specs/More.antt": "-- Meaning: more.\n\ndata IsOne : Type 0 where\n"}, "IsOne is defined in a/specs/Meanings.antt too"),
    ]),
    "definitions name characters": (check.check_characters, CHARACTERS, [
        ({"crates/a/specs/Lists.antt": CHARACTERS["crates/a/specs/Lists.antt"].replace("char.comma", "44")}, "line 5 says 44 where it means char.comma"),
        ({"crates/a/specs/Lists.antt": "-- Meaning: lists.\n\nquoted s = 34 ∷ s\n"}, "line 3 says 34 where it means char.quote"),
        ({"crates/a/src/lib.rt": "fn f(s: &mut S)\n    ensures { OnOk result (x : ℕ) ×\n        CharAt s.old 44 s.new }\n{\n    g(34);\n}\n"}, "line 3 says 44 where it means char.comma"),
    ]),
    "clauses are read, and not the code": (check.check_characters, {**CHARACTERS, "crates/a/src/lib.rt": "fn f(c: u8) -> bool\n    ensures { result ≡ is_comma c }\n{\n    c == 44 // 34 ∷ []\n}\n"}, [
        ({"crates/a/src/lib.rt": "fn f(c: u8) -> bool\n    requires known { c ≡ 44 }\n{\n    true\n}\n"}, "line 2 says 44 where it means char.comma"),
    ]),
    "lines of proofs are narrow": (check.check_widths, {"crates/a/proofs/Facts.antt": "use Rattle." + "x" * 150 + "\none : ℕ\none = " + "1" * 134 + "\n"}, [
        ({"crates/a/proofs/f/Answers.antt": "two = " + "2" * 135 + "\n"}, "line 1 has 141 characters"),
        ({"crates/a/specs/Lists.antt": "-- " + "x" * 138 + "\n"}, "line 1 has 141 characters"),
    ]),
    "calls that may be refused memory are in a test": (check.check_calls, CALLED, [
        ({"tests/src/calls.rs": "fn f() {\n    let kept = made(alloc)?;\n}\n"}, "no test calls Kept::copied"),
        ({"tests/src/calls.rs": "fn f() {\n    kept.copied()?;\n}\n"}, "no test calls made"),
        ({"tests/src/calls.rs": "fn f() {\n    let kept = made(alloc)?;\n    kept.copied_all()?;\n}\n"}, "no test calls Kept::copied"),
    ]),
    "out of memory is only passed on": (check.check_memory, {"crates/a/src/lib.rt": "fn f() -> Result<(), AllocError> {\n    g()?;\n    Ok(())\n}\n"}, [
        ({"crates/a/src/lib.rt": WRONG["a plain function"]}, "line 2 builds AllocError"),
        ({"crates/a/src/deep/one.rt": WRONG["an imported variant"]}, "line 2 builds OutOfMemory"),
    ]),
    "names that others resemble are listed": (check.check_similar, SIMILAR, [
        ({it: SIMILAR[it].replace('"yaers", ', "") for it in SIMILAR if "commands" in it}, "its list doesn't have exactly"),
        ({it: SIMILAR[it].replace('"volume"', '"volume", "volum"') for it in SIMILAR if "findings" in it}, "its list doesn't have exactly"),
        ({it: SIMILAR[it].replace('"day"', '"doubt"') for it in SIMILAR if "findings" in it}, "its list doesn't have exactly"),
    ]),
    "rows have answers": (check.check_rows, ROWS, [
        ({"tests/rows/a": "# keys\nkeys|x"}, "it has 3 lines, and a 2"),
        ({"tests/rows/a.stdout": "# keys\nkeys|x => a\nkeys|z => "}, "line 3 doesn't begin with the row of a"),
        ({"tests/rows/a.stdout": "# keys\nkeys|x\nkeys|y => "}, "line 2 doesn't begin with the row of a"),
        ({"tests/rows/a.stdout": "# names\nkeys|x => a\nkeys|y => "}, "line 1 doesn't begin with the row of a"),
    ]),
    "README.md is short, and the first example is tested": (check.check_readme, README, [
        ({"README.md": README["README.md"] + "\n" * 80}, "and not 80 at most"),
        ({"docs/LIBRARY.md": README["docs/LIBRARY.md"].replace("f(alloc)", "g(alloc)")}, "its first example is not the code of"),
        ({"docs/LIBRARY.md": README["docs/LIBRARY.md"].replace("```text\none", "```text\ntwo")}, "the output of its first example is not that of"),
        ({"docs/LIBRARY.md": "# The library\n"}, "its first example is not the code of"),
    ]),
    "documents name what there is": (check.check_documents, DOCUMENTS, [
        ({"README.md": "See docs/NONE.md.\n"}, "it names docs/NONE.md, which isn't there"),
        ({"docs/USE.md": "See none/ for more.\n"}, "it names none/, which isn't there"),
        ({"docs/USE.md": "See `bib_b::f`.\n"}, "it names the crate bib_b, which isn't there"),
        ({"crates/bib_a/wrong/INDEX.md": "In src/none.rt.\n"}, "it names src/none.rt, which isn't there"),
    ]),
    "crates.txt is in the order of the layers": (check.check_layers, LAYERS, [
        ({"crates.txt": LAYERS["crates.txt"].replace("a: memchr", "a: memchr b"), "crates/a/src/lib.rt": "use memchr::find;\nuse b::c;\n"}, "a uses b, which is not above it"),
        ({"crates/b/src/lib.rt": "//! Names.\n"}, "it names a for b, which doesn't mention it"),
    ]),
    "docs/CONTRIBUTING.md has the table of crates": (check.check_crates_table, TABLE, [
        ({"crates/a/src/lib.rt": "//! Strings.\n"}, "its table of crates is not what"),
        ({"crates.txt": LAYERS["crates.txt"] + "c: a\n", "crates/c/src/lib.rt": "//! More. use a::b;\n"}, "its table of crates is not what"),
        ({"docs/CONTRIBUTING.md": TABLE["docs/CONTRIBUTING.md"].replace("\n\nMore", "\n| `c` | |\n\nMore")}, "its table of crates is not what"),
        ({"docs/CONTRIBUTING.md": "# Work\n"}, "its table of crates is not what"),
    ]),
    "docs/CSL.md has the tables of the definitions": (check.check_tables, TABLES, [
        (changed("| booklet | pamphlet |", "| booklet | book |"), "types: `booklet` has `"),
        (changed("| chapter | chapter-number | rich |\n", ""), "fields: `chapter` has `chapter-number` in `item_fields`, but not here"),
        (changed("| venue | event-place | rich |", "| venue, city | event-place | rich |"), "fields: `city` has `event-place` here, but not in `item_fields`"),
        (changed("crossref, xref, xdata", "crossref, isbn, xdata"), "fields: it drops `isbn`, which `item_fields` has"),
        (changed("`CD-ROM`", "`CD`"), "genres: `datacd` has `"),
        (changed("latin (la)", "latin (lat)"), "languages: `latin` has `"),
        (changed("| `<b>..</b>` |", "| `<strong>..</strong>` |"), "commands: `\\textbf` has `"),
        (changed("| chapter | incollection |", "| chapter | inbook |"), "types of items: `chapter` has `"),
        (changed("type, abstract, annotation, note,", "type, abstract, note, annotation,"), "variables: `"),
        (changed("| inreference | ENCYC |\n", ""), "types of records: `inreference` has `"),
        (changed("AB, N1, N1, RN, KW", "AB, N1, N2, RN, KW"), "tags: `addendum` has `"),
        (changed("GOVDOC; UNPB, MANSCPT |", "GOVDOC, MANSCPT; UNPB |"), "types of RIS: `MANSCPT` has `"),
        (changed("ET | version for COMP, otherwise edition", "ET | edition"), "tags of RIS: `ET` has `version` in `variable_of`, but not here"),
        (changed('"status" Plain "pubstate"', '"status" Plain "state"', "crates/bib_csl/specs/Tables.antt"), "`status`"),
        (changed("| tag | variable |", "| tags | variables |"), "the section `Records of RIS as entries` has no table `tag | variable`"),
        (changed("These variables change:", "These change:"), "the section `Titles in sentence case` has no sentence `These variables"),
        (changed('bytes_eq name (codes "enquote")', 'starts_with name (codes "enquote")', "crates/bib_csl/specs/Markup.antt"),
         "crates/bib_csl/specs/Markup.antt: `quotes_argument` has a form that tables.py doesn't know: "),
        ({"crates/bib_ris/specs/Types.antt": None}, "no definition is called `"),
    ]),
    "docs/THEOREMS.md names definitions and calls": (check.check_theorems, THEOREMS, [
        ({"docs/THEOREMS.md": THEOREMS["docs/THEOREMS.md"].replace("`IsOne`", "`IsTwo`")}, "IsTwo isn't defined in a/specs/Meanings.antt"),
        ({"docs/THEOREMS.md": THEOREMS["docs/THEOREMS.md"].replace("`a::f`", "`a::g`")}, "no source has a::g"),
    ]),
}


@contextlib.contextmanager
def tree(files):
    """A folder with these files, except those whose text is None, which check.py takes for the repository; gives its list of errors."""
    with tempfile.TemporaryDirectory() as folder:
        top = pathlib.Path(folder)
        for name, text in files.items():
            if text is None:
                continue
            file = top / name
            file.parent.mkdir(parents=True, exist_ok=True)
            file.write_text(text)
        with mock.patch.multiple(check, TOP=top, CRATES=top / "crates", errors=[]):
            yield check.errors


class Rules(unittest.TestCase):
    def test_trees_that_keep_a_rule_are_passed(self):
        for name, (rule, files, _) in RULES.items():
            with self.subTest(name), tree(files) as errors:
                rule()
                self.assertEqual(errors, [])

    def test_trees_that_break_a_rule_are_reported(self):
        for name, (rule, files, changes) in RULES.items():
            for change, why in changes:
                with self.subTest(name, error=why), tree({**files, **change}) as errors:
                    rule()
                    self.assertTrue(errors)
                    self.assertEqual([it for it in errors if why not in it], [])

    def test_each_rule_has_a_test_and_is_run(self):
        rules = {it for name, it in vars(check).items() if name.startswith("check_") and name != "check_fit"}
        tested = {rule for rule, _, _ in RULES.values()}
        self.assertEqual(rules | {check.edits}, tested)
        with contextlib.ExitStack() as stack:
            stack.enter_context(contextlib.redirect_stdout(io.StringIO()))
            run = [stack.enter_context(mock.patch.object(check, it.__name__)) for it in rules]
            stack.enter_context(tree({}))
            self.assertEqual(check.main(), 0)
            for it in run:
                it.assert_called_once()

    def test_an_error_is_a_status(self):
        with contextlib.ExitStack() as stack:
            stack.enter_context(contextlib.redirect_stdout(io.StringIO()))
            for name in vars(check):
                if name.startswith("check_") and name != "check_fit":
                    stack.enter_context(mock.patch.object(check, name))
            stack.enter_context(tree({**EDITS, "crates/a/must-fail/f-is-three.edit": "file: src/lib.rt\n"}))
            self.assertEqual(check.main(), 1)


class OutOfMemory(unittest.TestCase):
    def test_wrong_bodies_are_reported(self):
        for name, text in WRONG.items():
            with self.subTest(name):
                self.assertEqual(len(list(built(text))), 1)

    def test_right_bodies_are_not(self):
        for name, text in RIGHT.items():
            with self.subTest(name):
                self.assertEqual(list(built(text)), [])


if __name__ == "__main__":
    unittest.main()
