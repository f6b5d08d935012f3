//! The fields of an entry, read one after another by one reader.

use bib_chunks::chunk::Chunks;
use bib_abbreviations::reader::FieldReader;
use bib_syntax::raw::{Field, Pair, ParseError, RawBibliography};
use std::alloc::{AllocError, Global};
use std::collections::BTreeMap;
use crate::support::chunks::kinds_text;

type Definitions<'r, 's> = BTreeMap<&'s str, &'r Field<'s>>;

// The definitions of a file by their names.
fn definitions<'r, 's>(
    alloc: Global,
    raw: &'r RawBibliography<'s>,
) -> Result<Definitions<'r, 's>, AllocError> {
    let mut names = BTreeMap::new(alloc);
    for pair in &raw.abbreviations {
        names.insert(pair.key.v, &pair.value.v)?;
    }
    Ok(names)
}

// The raw reading of a file.
fn parsed(alloc: Global, file: &str) -> Result<RawBibliography<'_>, ParseError> {
    RawBibliography::parse(alloc, file)
}

// The contents of a field.
fn contents<'s>(reader: &mut FieldReader<'_, 's>, field: &Pair<'s>) -> Result<Chunks, ParseError> {
    reader.read(field.key.v, &field.value.v)
}

// The contents of a field as a text, or the error.
fn field_text<'s>(
    alloc: Global,
    reader: &mut FieldReader<'_, 's>,
    field: &Pair<'s>,
) -> Result<String, AllocError> {
    match contents(reader, field) {
        Ok(chunks) => kinds_text(alloc, chunks.as_slice()),
        Err(error) => Ok(format!(in alloc; "{error}")?),
    }
}

// The contents of an entry's fields, a bar before each.
fn fields_text<'s>(
    alloc: Global,
    reader: &mut FieldReader<'_, 's>,
    fields: &[Pair<'s>],
) -> Result<String, AllocError> {
    let mut out = String::new(alloc);
    for field in fields {
        let text = field_text(alloc, reader, field)?;
        out.push('|')?;
        out.push_str(text.as_str())?;
    }
    Ok(out)
}

// The contents of the fields of the last entry.
fn last_entry_text(alloc: Global, raw: &RawBibliography<'_>) -> Result<String, AllocError> {
    let names = definitions(alloc, raw)?;
    let mut reader = FieldReader::new(alloc, names);
    match raw.entries.last() {
        Some(entry) => fields_text(alloc, &mut reader, entry.v.fields.as_slice()),
        None => String::from_str(alloc, "no entry"),
    }
}

/// The contents of the fields of a file's last entry, each a text or an error, a bar before each.
pub fn fields(alloc: Global, file: &str) -> Result<String, AllocError> {
    match parsed(alloc, file) {
        Ok(raw) => last_entry_text(alloc, &raw),
        Err(error) => Ok(format!(in alloc; "{error}")?),
    }
}
