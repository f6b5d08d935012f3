//! What is written for values that no text is read as.

use crate::values::notation::date_of;
use crate::values::typed::written;
use bib_chunks::chunk::Chunks;
use bib_tables::types::EditorType;
use bib_text::text::Text;
use std::alloc::{AllocError, Global};
use std::ops::Range;
use crate::support::chunks::chunks_of;

// Parts of a list, each after a bar.
fn parts_of(alloc: Global, text: &str) -> Result<Vec<Chunks>, AllocError> {
    let mut parts = Vec::new(alloc);
    for part in text.split('|').skip(1) {
        parts.push(chunks_of(alloc, part)?)?;
    }
    Ok(parts)
}

// An unknown type of this very text.
fn unknown(alloc: Global, text: &str) -> Result<EditorType, AllocError> {
    Ok(EditorType::Unknown(Text::from_str(alloc, text)?))
}

/// What is written for a list of no ranges or of no texts, an unknown type of editors by its text, parts of a list in
/// chunks, and a date by its fields.
pub fn answer(alloc: Global, kind: &str, text: &str) -> Result<Option<String>, AllocError> {
    Ok(Some(match kind {
        "Vec<Range<u32>>" => written(alloc, &Vec::<Range<u32>>::new(alloc))?,
        "Vec<String>" => written(alloc, &Vec::<String>::new(alloc))?,
        "Vec<Chunks>" => written(alloc, &parts_of(alloc, text)?)?,
        "EditorType" => written(alloc, &unknown(alloc, text)?)?,
        "Date" => written(alloc, &date_of(text))?,
        _ => return Ok(None),
    }))
}
