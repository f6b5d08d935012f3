//! The raw reading of a file as a text: the preamble, the abbreviations and the entries, each with its bytes. An
//! element is `N<text>[0-2]`, and `A<name>[0-2]` where it is the name of an abbreviation.

use bib_syntax::raw::{BiblatexParser, Pair, ParseError, RawBibliography, RawChunk, RawEntry};
use bib_text::spanned::{Span, Spanned};
use std::alloc::{AllocError, Global};

// The raw reading of a file, by a parser.
fn parsed(alloc: Global, file: &str) -> Result<RawBibliography<'_>, ParseError> {
    BiblatexParser::new(file).parse(alloc)
}

// Adds bytes.
fn push_bytes(out: &mut String, alloc: Global, span: &Span) -> Result<(), AllocError> {
    let bytes = format!(in alloc; "[{}-{}]", span.start, span.end)?;
    Ok(out.push_str(bytes.as_str())?)
}

// Adds a name with its bytes.
fn push_name(out: &mut String, alloc: Global, name: &Spanned<&str>) -> Result<(), AllocError> {
    out.push_str(name.v)?;
    push_bytes(out, alloc, &name.span)
}

// Adds an element of a value.
fn push_element(
    out: &mut String,
    alloc: Global,
    element: &Spanned<RawChunk<'_>>,
) -> Result<(), AllocError> {
    let (kind, text) = match &element.v {
        RawChunk::Normal(text) => ("N<", text),
        RawChunk::Abbreviation(name) => ("A<", name),
    };
    out.push_str(kind)?;
    out.push_str(text)?;
    out.push('>')?;
    push_bytes(out, alloc, &element.span)
}

// Adds a name and its value.
fn push_pair(out: &mut String, alloc: Global, pair: &Pair<'_>) -> Result<(), AllocError> {
    push_name(out, alloc, &pair.key)?;
    out.push_str(" = ")?;
    for element in &pair.value.v {
        push_element(out, alloc, element)?;
    }
    out.push(' ')?;
    push_bytes(out, alloc, &pair.value.span)
}

// Adds an entry.
fn push_entry(
    out: &mut String,
    alloc: Global,
    entry: &Spanned<RawEntry<'_>>,
) -> Result<(), AllocError> {
    out.push_str(" @")?;
    push_name(out, alloc, &entry.v.kind)?;
    out.push('{')?;
    push_name(out, alloc, &entry.v.key)?;
    for field in &entry.v.fields {
        out.push_str(", ")?;
        push_pair(out, alloc, field)?;
    }
    out.push('}')?;
    push_bytes(out, alloc, &entry.span)
}

// Adds the abbreviations.
fn push_abbreviations(
    out: &mut String,
    alloc: Global,
    abbreviations: &[Pair<'_>],
) -> Result<(), AllocError> {
    for pair in abbreviations {
        out.push_str(" @string{")?;
        push_pair(out, alloc, pair)?;
        out.push('}')?;
    }
    Ok(())
}

// A raw reading as a text.
fn raw_text(alloc: Global, raw: &RawBibliography<'_>) -> Result<String, AllocError> {
    let mut out = format!(in alloc; "@preamble{{{}}}", raw.preamble.as_str())?;
    push_abbreviations(&mut out, alloc, raw.abbreviations.as_slice())?;
    for entry in &raw.entries {
        push_entry(&mut out, alloc, entry)?;
    }
    Ok(out)
}

/// The raw reading of a file as a text, or its error.
pub fn raw(alloc: Global, file: &str) -> Result<String, AllocError> {
    match parsed(alloc, file) {
        Ok(raw) => raw_text(alloc, &raw),
        Err(error) => Ok(format!(in alloc; "{error}")?),
    }
}
