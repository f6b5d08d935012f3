//! Reads rows, a dialect and a text in each line, and prints each with the text in that dialect's types and fields. With `notes` before the
//! dialect it prints what is to know of fields that stay: the index of the entry, that of the field, and what.

use edit_convert::converting::convert;
use edit_convert::notes::{NoteKind, notes};
use edit_entries::document::RawDocument;
use bib_tables::dialects::Dialect;
use std::alloc::{AllocError, Global};
use crate::support::rows::Calls;

pub struct Conversions;

// The dialect that a row names.
fn dialect_named(name: &str) -> Option<Dialect> {
    match name {
        "biblatex" => Some(Dialect::Biblatex),
        "bibtex" => Some(Dialect::Bibtex),
        _ => None,
    }
}

// A word for what is to know.
fn word(kind: NoteKind) -> &'static str {
    match kind {
        NoteKind::NameIsThere => "name is there",
        NoteKind::DateStays => "date stays",
        NoteKind::MonthStays => "month stays",
        NoteKind::NotRead => "not read",
        NoteKind::PartsNotRead => "parts not read",
    }
}

// The notes on a document, one after another.
fn noted(
    alloc: Global,
    document: &RawDocument<'_>,
    dialect: Dialect,
) -> Result<String, AllocError> {
    let mut out = String::new(alloc);
    for note in &notes(alloc, document, dialect)? {
        let line = format!(in alloc; "{}.{} {}; ", note.entry, note.field, word(note.kind))?;
        out.push_str(line.as_str())?;
    }
    Ok(out)
}

impl Calls for Conversions {
    fn answer(alloc: Global, call: &str, text: &str) -> Result<Option<String>, AllocError> {
        let Ok(document) = RawDocument::parse(alloc, text) else {
            return Ok(Some(String::from_str(alloc, "no bibliography")?));
        };
        if let Some(name) = call.strip_prefix("notes ") {
            let Some(dialect) = dialect_named(name) else {
                return Ok(None);
            };
            return Ok(Some(noted(alloc, &document, dialect)?));
        }
        let Some(dialect) = dialect_named(call) else {
            return Ok(None);
        };
        Ok(Some(convert(alloc, &document, dialect)?))
    }
}
