//! The keys of a file, or its error.

use bib_syntax::raw::{ParseError, RawBibliography, RawEntry};
use bib_text::spanned::Spanned;
use std::alloc::{AllocError, Global};

// The raw reading of a file.
fn parsed(alloc: Global, file: &str) -> Result<RawBibliography<'_>, ParseError> {
    RawBibliography::parse(alloc, file)
}

// The keys of entries, a bar before each.
pub(crate) fn barred(alloc: Global, entries: &[Spanned<RawEntry<'_>>]) -> Result<String, AllocError> {
    let mut out = String::new(alloc);
    for entry in entries {
        out.push('|')?;
        out.push_str(entry.v.key.v)?;
    }
    Ok(out)
}

/// The keys of a file's entries, a bar before each, or its error.
pub fn keys(alloc: Global, file: &str) -> Result<String, AllocError> {
    match parsed(alloc, file) {
        Ok(raw) => barred(alloc, raw.entries.as_slice()),
        Err(error) => Ok(format!(in alloc; "{error}")?),
    }
}

// The error of a text if it lies outside of the text.
fn error_outside(alloc: Global, text: &str) -> Option<ParseError> {
    let error = parsed(alloc, text).err()?;
    let is_within = error.span.start <= error.span.end && error.span.end <= text.len();
    if is_within { None } else { Some(error) }
}

/// Whether the error of each prefix of a text lies within that start: the first that doesn't, with the front's length.
pub fn prefixes(alloc: Global, text: &str) -> Result<String, AllocError> {
    for length in 0..=text.len() {
        let leading_run = text.get(..length).unwrap_or("");
        if let Some(error) = error_outside(alloc, leading_run) {
            return Ok(format!(in alloc; "{error} in {length} bytes")?);
        }
    }
    String::from_str(alloc, "each error lies within")
}
