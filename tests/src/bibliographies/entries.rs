//! Entries as texts: `a: title=T year=2020 | b:` are two entries with their fields in the order of names.

use biblatex::{Bibliography, ChunksExt, ChunksRef, Entry, RetrievalError};
use std::alloc::{AllocError, Global};
use crate::support::chunks::{chunks_text, styled_text};

// The text of chunks.
fn verbatim(alloc: Global, chunks: ChunksRef<'_>) -> Result<String, AllocError> {
    chunks.format_verbatim(alloc)
}

/// The text of chunks, or a dash where there are none.
pub(crate) fn text_or_dash(
    alloc: Global,
    chunks: Option<ChunksRef<'_>>,
) -> Result<String, AllocError> {
    match chunks {
        Some(chunks) => verbatim(alloc, chunks),
        None => String::from_str(alloc, "-"),
    }
}

// Adds the key of an entry, and each field with its text.
fn push_entry(out: &mut String, alloc: Global, entry: &Entry) -> Result<(), AllocError> {
    out.push_str(entry.key.as_str())?;
    out.push(':')?;
    for (name, chunks) in entry.fields.iter() {
        let text = verbatim(alloc, chunks.as_slice())?;
        let field = format!(in alloc; " {}={}", name.as_str(), text.as_str())?;
        out.push_str(field.as_str())?;
    }
    Ok(())
}

/// An entry as a text.
pub(crate) fn entry_text(alloc: Global, entry: &Entry) -> Result<String, AllocError> {
    let mut out = String::new(alloc);
    push_entry(&mut out, alloc, entry)?;
    Ok(out)
}

/// An entry as a text, or a dash where there is none.
pub(crate) fn entry_or_dash(alloc: Global, entry: Option<&Entry>) -> Result<String, AllocError> {
    match entry {
        Some(entry) => entry_text(alloc, entry),
        None => String::from_str(alloc, "-"),
    }
}

/// The entries, separated by bars.
pub(crate) fn entries(alloc: Global, bibliography: &Bibliography) -> Result<String, AllocError> {
    let mut out = String::new(alloc);
    for entry in bibliography.iter() {
        if !out.is_empty() {
            out.push_str(" | ")?;
        }
        push_entry(&mut out, alloc, entry)?;
    }
    Ok(out)
}

/// The key of each entry and the name of its type.
pub(crate) fn types(alloc: Global, bibliography: &Bibliography) -> Result<String, AllocError> {
    let mut out = String::new(alloc);
    for entry in bibliography.iter() {
        if !out.is_empty() {
            out.push_str(" | ")?;
        }
        let kind = format!(in alloc; "{}: {}", entry.key.as_str(), entry.entry_type)?;
        out.push_str(kind.as_str())?;
    }
    Ok(out)
}

/// The chunks of the field `t` of the entry `k`.
pub(crate) fn chunks(alloc: Global, bibliography: &Bibliography) -> Result<String, AllocError> {
    let chunks = bibliography.get("k").and_then(|entry| entry.get("t"));
    match chunks {
        Some(chunks) => chunks_text(alloc, chunks),
        None => String::from_str(alloc, "-"),
    }
}

/// The chunks of the first entry's title that have a text.
pub(crate) fn title(alloc: Global, bibliography: &Bibliography) -> Result<String, AllocError> {
    let chunks = bibliography.iter().next().and_then(|entry| entry.get("title"));
    match chunks {
        Some(chunks) => styled_text(alloc, chunks),
        None => String::from_str(alloc, "-"),
    }
}

// A field as a number. (It has no contract, so that who calls it proves nothing of the reading again.)
fn read_number(alloc: Global, entry: &Entry) -> Result<i64, RetrievalError> {
    entry.get_as::<i64>(alloc, "f")
}

/// What the field `f` of the entry `k` is read as, as a number.
pub(crate) fn number(alloc: Global, bibliography: &Bibliography) -> Result<String, AllocError> {
    let Some(entry) = bibliography.get("k") else {
        return String::from_str(alloc, "-");
    };
    match read_number(alloc, entry) {
        Ok(number) => number.to_string(alloc),
        Err(error) => error.to_string(alloc),
    }
}
