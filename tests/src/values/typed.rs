//! What chunks are read as by a type, and what is written for the value.

use bib_chunks::chunk::ChunksRef;
use bib_typed::ext::ChunksExt;
use bib_typed::typed::Type;
use std::alloc::{AllocError, Global};
use crate::support::chunks::{chunks_of, chunks_text};
use crate::support::shown::{Shown, agreed, answer_of};

// The value, by the type's call and by that of chunks.
fn read<T: Type + Shown + Drop>(
    alloc: Global,
    chunks: ChunksRef<'_>,
) -> Result<String, AllocError> {
    let by_type = answer_of(alloc, T::from_chunks(alloc, chunks))?;
    let by_chunks = answer_of(alloc, chunks.parse::<T>(alloc))?;
    agreed(alloc, by_type, by_chunks)
}

/// The chunks that are written for a value.
pub fn written<T: Type>(alloc: Global, value: &T) -> Result<String, AllocError> {
    let chunks = value.to_chunks(alloc)?;
    chunks_text(alloc, chunks.as_slice())
}

// The text that is written for a value's chunks.
fn value_text<T: Type>(alloc: Global, value: &T) -> Result<String, AllocError> {
    let chunks = value.to_chunks(alloc)?;
    chunks.as_slice().to_biblatex_string(alloc, false)
}

// The chunks that are written for a value, and what they are read as.
fn rewritten<T: Type + Shown + Drop>(alloc: Global, value: &T) -> Result<String, AllocError> {
    let chunks = value.to_chunks(alloc)?;
    let text = chunks_text(alloc, chunks.as_slice())?;
    let again = read::<T>(alloc, chunks.as_slice())?;
    format!(in alloc; "{text} read as {again}")
}

// A copy of a value.
fn copied<T: Shown + Clone + Drop>(alloc: Global, value: &T) -> Result<String, AllocError> {
    let copy = value.clone()?;
    copy.shown(alloc)
}

// What the call answers of a value.
fn of_value<T: Type + Shown + Clone + Drop>(
    alloc: Global,
    how: &str,
    value: &T,
) -> Result<Option<String>, AllocError> {
    Ok(Some(match how {
        "write" => written(alloc, value)?,
        "value" => value_text(alloc, value)?,
        "reread" => rewritten(alloc, value)?,
        "copy" => copied(alloc, value)?,
        _ => return Ok(None),
    }))
}

/// What chunks are read as; or of the value that they are read as, its copy, what is written for it, and what that is
/// read as.
pub fn answer<T: Type + Shown + Clone + Drop>(
    alloc: Global,
    how: &str,
    text: &str,
) -> Result<Option<String>, AllocError> {
    let chunks = chunks_of(alloc, text)?;
    if how == "read" {
        return Ok(Some(read::<T>(alloc, chunks.as_slice())?));
    }
    match T::from_chunks(alloc, chunks.as_slice()) {
        Ok(value) => of_value(alloc, how, &value),
        Err(error) => Ok(Some(error.to_string(alloc)?)),
    }
}
