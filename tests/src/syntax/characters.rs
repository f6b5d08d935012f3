//! The characters of a text of which a test of the grammar is true.

use bib_syntax::raw::{is_id_continue, is_id_start, is_key};
use std::alloc::{AllocError, Global};

/// Those that a key may have.
pub fn key_characters(alloc: Global, text: &str) -> Result<String, AllocError> {
    let mut out = String::new(alloc);
    for c in text.chars() {
        if is_key(c) {
            out.push(c)?;
        }
    }
    Ok(out)
}

/// Those that can begin an identifier.
pub fn id_starts(alloc: Global, text: &str) -> Result<String, AllocError> {
    let mut out = String::new(alloc);
    for c in text.chars() {
        if is_id_start(c) {
            out.push(c)?;
        }
    }
    Ok(out)
}

/// Those that an identifier may have after its first.
pub fn id_continuations(alloc: Global, text: &str) -> Result<String, AllocError> {
    let mut out = String::new(alloc);
    for c in text.chars() {
        if is_id_continue(c) {
            out.push(c)?;
        }
    }
    Ok(out)
}
