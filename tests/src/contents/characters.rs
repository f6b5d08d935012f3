//! The characters whose meaning a backslash takes.

use bib_contents::classes::is_escapable;
use std::alloc::{AllocError, Global};

/// The characters of a text whose meaning a backslash takes, in a verbatim field or another, where a text is read or
/// where it is written.
pub fn escapable(
    alloc: Global,
    text: &str,
    is_verbatim: bool,
    is_read: bool,
) -> Result<String, AllocError> {
    let mut out = String::new(alloc);
    for c in text.chars() {
        if is_escapable(c, is_verbatim, is_read) {
            out.push(c)?;
        }
    }
    Ok(out)
}
