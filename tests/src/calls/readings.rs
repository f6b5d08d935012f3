//! Copies of the raw reading of a file, of its parts and of errors.

use crate::calls::checks::{Reading, are_read};
use bib_tables::type_error::{TypeError, TypeErrorKind};
use bib_syntax::raw::{
    Pair, ParseError, ParseErrorKind, RawBibliography, RawChunk, RawEntry, Token,
};
use bib_text::text::Text;
use std::alloc::{AllocError, Global};

// A file with a preamble, an abbreviation, and an entry with a field of two elements.
static FILE: &str = "@preamble{\"p\"} @string{s = {x}} @book{k, t = s # {y}}";

// Whether an element is the name `s`.
fn is_name(chunk: &RawChunk<'_>) -> bool {
    matches!(chunk, RawChunk::Abbreviation(name) if *name == "s")
}

// Whether an element is this text.
fn is_normal(chunk: &RawChunk<'_>, want: &str) -> bool {
    matches!(chunk, RawChunk::Normal(text) if *text == want)
}

// Whether a pair is the field of the file.
fn is_field(pair: &Pair<'_>) -> bool {
    let [first, last] = pair.value.v.as_slice() else {
        return false;
    };
    pair.key.v == "t" && is_name(&first.v) && is_normal(&last.v, "y") && last.span == (50..51)
}

// Whether a pair is the definition of the file.
fn is_definition(pair: &Pair<'_>) -> bool {
    let [only] = pair.value.v.as_slice() else {
        return false;
    };
    pair.key.v == "s" && is_normal(&only.v, "x") && only.span == (28..29)
}

// Whether an entry is that of the file.
fn is_entry(entry: &RawEntry<'_>) -> bool {
    let [field] = entry.fields.as_slice() else {
        return false;
    };
    entry.kind.v == "book" && entry.key.v == "k" && is_field(field)
}

// Whether it is all that the file says.
fn is_file(raw: &RawBibliography<'_>) -> bool {
    let ([entry], [definition]) = (raw.entries.as_slice(), raw.abbreviations.as_slice()) else {
        return false;
    };
    raw.preamble.as_str() == "\"p\"" && is_entry(&entry.v) && is_definition(definition)
}

// The raw reading of the file. (It has no contract, so that who calls it proves nothing of the grammar again.)
fn read(alloc: Global) -> Result<RawBibliography<'static>, ParseError> {
    RawBibliography::parse(alloc, FILE)
}

fn clones_a_raw_reading(alloc: Global) -> Reading {
    Ok(is_file(&read(alloc)?.clone()?))
}

fn clones_raw_entries(alloc: Global) -> Reading {
    let raw = read(alloc)?;
    let [entry] = raw.entries.as_slice() else {
        return Ok(false);
    };
    Ok(is_entry(&entry.v.clone()?))
}

fn clones_pairs(alloc: Global) -> Reading {
    let raw = read(alloc)?;
    let [pair] = raw.abbreviations.as_slice() else {
        return Ok(false);
    };
    Ok(is_definition(&pair.clone()?))
}

fn clones_elements(_alloc: Global) -> Reading {
    let name = RawChunk::Abbreviation("s").clone()?;
    Ok(is_name(&name) && is_normal(&RawChunk::Normal("é").clone()?, "é"))
}

// Whether a copy of an error is the same.
fn is_same_error(error: &ParseError) -> Result<bool, AllocError> {
    let copy = error.clone()?;
    Ok(copy == *error)
}

fn clones_errors(alloc: Global) -> Reading {
    let kind = ParseErrorKind::DuplicateKey(Text::from_str(alloc, "é")?);
    Ok(is_same_error(&ParseError { span: 3..5, kind })?)
}

// An error of each kind, by a number below ten.
fn kind(alloc: Global, number: u8) -> Result<ParseErrorKind, AllocError> {
    let text = Text::from_str(alloc, "a")?;
    Ok(match number {
        0 => ParseErrorKind::UnexpectedEof,
        1 => ParseErrorKind::Unexpected(Token::DecimalPoint),
        2 => ParseErrorKind::Expected(Token::Comma),
        3 => ParseErrorKind::UnknownAbbreviation(text),
        4 => ParseErrorKind::MalformedCommand,
        5 => ParseErrorKind::DuplicateKey(text),
        6 => ParseErrorKind::ResolutionError(TypeErrorKind::InvalidNumber),
        7 => ParseErrorKind::AbbreviationCycle(text),
        8 => ParseErrorKind::ReferenceCycle(text),
        _ => ParseErrorKind::OutOfMemory,
    })
}

fn passes_out_of_memory_on(alloc: Global) -> Reading {
    let of_chunks = TypeError { span: 3..5, kind: TypeErrorKind::InvalidNumber };
    let of_text = ParseError { span: 3..5, kind: kind(alloc, 5)? };
    let lacking = TypeError::from(AllocError).unless_out_of_memory().is_err()
        && ParseError::from(AllocError).unless_out_of_memory().is_err();
    of_text.unless_out_of_memory()?;
    Ok(lacking && of_chunks.unless_out_of_memory()?.kind == TypeErrorKind::InvalidNumber)
}

// Whether a copy of a kind is the same.
fn is_copied(kind: &ParseErrorKind) -> Result<bool, AllocError> {
    let copy = kind.clone()?;
    Ok(copy == *kind)
}

fn clones_kinds_of_errors(alloc: Global) -> Reading {
    for number in 0u8..10 {
        let kind = kind(alloc, number)?;
        if !is_copied(&kind)? {
            return Ok(false);
        }
    }
    Ok(true)
}

fn clones_tokens(_alloc: Global) -> Reading {
    Ok(Token::Equals.clone()? == Token::Equals)
}

#[test]
fn files_and_fields(rt: HostRuntime) {
    let alloc = rt.alloc();
    let calls = [
        ("RawBibliography::clone", clones_a_raw_reading(alloc)),
        ("RawEntry::clone", clones_raw_entries(alloc)),
        ("Pair::clone", clones_pairs(alloc)),
        ("RawChunk::clone", clones_elements(alloc)),
        ("ParseError::clone", clones_errors(alloc)),
        ("ParseErrorKind::clone", clones_kinds_of_errors(alloc)),
        ("Token::clone", clones_tokens(alloc)),
        ("unless_out_of_memory", passes_out_of_memory_on(alloc)),
    ];
    are_read(&rt, &calls);
}
