//! Reads rows, a text in each line, and prints each with the text in which its entries have what they inherit in fields of their own, or
//! with why it is refused. `again` prints that text resolved once more, which changes nothing. `uninherited` prints the fields that entries
//! lack after that: for each reference and parent the entry, the reference with its start, the parent, and the names of the fields.

use edit_entries::document::RawDocument;
use edit_resolve::errors::ResolveError;
use edit_resolve::resolving::resolve;
use edit_resolve::uninherited::{UninheritedFields, uninherited_fields};
use std::alloc::{AllocError, Global};
use crate::support::rows::Calls;

pub struct Resolutions;

// Why a text is refused.
fn refusal(alloc: Global, error: ResolveError) -> Result<String, AllocError> {
    match error {
        ResolveError::Cycle(index) => format!(in alloc; "refused: cycle at entry {}", index),
        ResolveError::OutOfMemory => Err(AllocError),
    }
}

// A text whose entries have what they inherit.
fn resolved(alloc: Global, text: &str) -> Result<String, AllocError> {
    let Ok(document) = RawDocument::parse(alloc, text) else {
        return String::from_str(alloc, "no bibliography");
    };
    match resolve(alloc, &document) {
        Ok(new) => Ok(new),
        Err(error) => refusal(alloc, error),
    }
}

// Fields that entries lack.
fn shown(alloc: Global, found: &[UninheritedFields<'_, '_>]) -> Result<String, AllocError> {
    let mut shown = String::new(alloc);
    for fields in found {
        let reference = &fields.reference.key;
        let head = format!(in alloc;
            "[{} by {} at {} from {}:", fields.entry.v.key.v, reference.v, reference.span.start, fields.parent.v.key.v)?;
        shown.push_str(&head)?;
        for name in &fields.names {
            shown.push_str(" ")?;
            shown.push_str(*name)?;
        }
        shown.push_str("]")?;
    }
    Ok(shown)
}

// The fields that the entries of a text lack.
fn uninherited(alloc: Global, text: &str) -> Result<String, AllocError> {
    let Ok(document) = RawDocument::parse(alloc, text) else {
        return String::from_str(alloc, "no bibliography");
    };
    match uninherited_fields(alloc, &document) {
        Ok(found) => shown(alloc, &found),
        Err(error) => refusal(alloc, error),
    }
}

impl Calls for Resolutions {
    fn answer(alloc: Global, call: &str, text: &str) -> Result<Option<String>, AllocError> {
        if call == "uninherited" {
            return Ok(Some(uninherited(alloc, text)?));
        }
        let new = resolved(alloc, text)?;
        match call {
            "resolve" => Ok(Some(new)),
            "again" => Ok(Some(resolved(alloc, new.as_str())?)),
            _ => Ok(None),
        }
    }
}
