//! Fields whose value is their chunks: set, and got.

use crate::entries::fields::{entry_of, fields_text};
use crate::entries::titles;
use bib_entry::entry::Entry;
use std::alloc::{AllocError, Global};
use crate::support::chunks::{chunks_of, chunks_text};

// What the getter of this name finds.
fn found(alloc: Global, entry: &Entry, name: &str) -> Result<Option<String>, AllocError> {
    match titles::get(entry, alloc, name) {
        Some(Ok(chunks)) => Ok(Some(chunks_text(alloc, chunks)?)),
        Some(Err(error)) => Ok(Some(error.to_string(alloc)?)),
        None => Ok(None),
    }
}

/// What the getter of this name finds in an entry of these fields.
pub fn get(alloc: Global, name: &str, fields: &str) -> Result<Option<String>, AllocError> {
    let entry = entry_of(alloc, fields)?;
    found(alloc, &entry, name)
}

/// The fields of an entry after the setter of this name was called, and what the getter finds there. The first of the
/// texts that semicolons separate are the chunks, and the others are fields that the entry had.
pub fn set(alloc: Global, name: &str, argument: &str) -> Result<Option<String>, AllocError> {
    let (text, fields) = argument.split_once(';').unwrap_or((argument, ""));
    let mut entry = entry_of(alloc, fields)?;
    let chunks = chunks_of(alloc, text)?;
    if titles::set(&mut entry, name, chunks).is_err() {
        return Ok(None);
    }
    let Some(found) = found(alloc, &entry, name)? else {
        return Ok(None);
    };
    let fields = fields_text(alloc, &entry)?;
    Ok(Some(format!(in alloc; "{fields} / {found}")?))
}
