//! The contents of the last field of a file's last entry as chunks, or the error.

use bib_chunks::chunk::Chunks;
use bib_abbreviations::parsing::parse_field;
use bib_syntax::raw::{Field, Pair, ParseError, RawBibliography};
use std::alloc::{AllocError, Global};
use std::collections::HashMap;
use crate::support::chunks::{chunks_text, kinds_text};

type Definitions<'r, 's> = HashMap<&'r str, &'r Field<'s>>;

// The definitions of a file by their names.
fn definitions<'r, 's>(
    alloc: Global,
    raw: &'r RawBibliography<'s>,
) -> Result<Definitions<'r, 's>, AllocError> {
    let mut names = HashMap::new(alloc);
    for pair in &raw.abbreviations {
        names.insert(pair.key.v, &pair.value.v)?;
    }
    Ok(names)
}

// The last field of the last entry.
fn last_field<'r, 's>(raw: &'r RawBibliography<'s>) -> Option<&'r Pair<'s>> {
    raw.entries.last()?.v.fields.last()
}

// The raw reading of a file.
fn parsed(alloc: Global, file: &str) -> Result<RawBibliography<'_>, ParseError> {
    RawBibliography::parse(alloc, file)
}

// The contents of a field.
fn contents(
    alloc: Global,
    field: &Pair<'_>,
    names: &Definitions<'_, '_>,
) -> Result<Chunks, ParseError> {
    parse_field(alloc, field.key.v, &field.value.v, names)
}

// The contents of the last field; there is one.
fn last_contents(alloc: Global, file: &str) -> Result<Chunks, ParseError> {
    let raw = parsed(alloc, file)?;
    let names = definitions(alloc, &raw)?;
    match last_field(&raw) {
        Some(field) => contents(alloc, field, &names),
        None => Ok(Chunks::new(alloc)),
    }
}

/// The contents of the last field of a file's last entry, as kinds and texts.
pub fn field(alloc: Global, file: &str) -> Result<String, AllocError> {
    match last_contents(alloc, file) {
        Ok(chunks) => kinds_text(alloc, chunks.as_slice()),
        Err(error) => Ok(format!(in alloc; "{error}")?),
    }
}

/// The contents of the last field of a file's last entry, with their bytes.
pub fn field_with_bytes(alloc: Global, file: &str) -> Result<String, AllocError> {
    match last_contents(alloc, file) {
        Ok(chunks) => chunks_text(alloc, chunks.as_slice()),
        Err(error) => Ok(format!(in alloc; "{error}")?),
    }
}

/// The contents of a title in braces.
pub fn title(alloc: Global, text: &str) -> Result<String, AllocError> {
    let file = format!(in alloc; "@misc{{k, title={{{text}}}}}")?;
    field(alloc, file.as_str())
}
