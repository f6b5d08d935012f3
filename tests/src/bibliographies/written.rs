//! What is written of bibliographies and entries, whether they are settled, and what is read of it again.

use crate::bibliographies::entries::entries;
use crate::bibliographies::reread::reread;
use crate::bibliographies::truth;
use biblatex::{Bibliography, Entry, ParseError};
use std::alloc::{AllocError, Global};

/// A bibliography with BibLaTeX's names.
pub(crate) fn biblatex(alloc: Global, bibliography: &Bibliography) -> Result<String, AllocError> {
    bibliography.to_biblatex_string(alloc)
}

/// A bibliography with BibTeX's names.
pub(crate) fn bibtex(alloc: Global, bibliography: &Bibliography) -> Result<String, AllocError> {
    bibliography.to_bibtex_string(alloc)
}

/// An entry with BibLaTeX's names.
pub(crate) fn entry_biblatex(alloc: Global, entry: &Entry) -> Result<String, AllocError> {
    entry.to_biblatex_string(alloc)
}

/// An entry with BibTeX's names.
pub(crate) fn entry_bibtex(alloc: Global, entry: &Entry) -> Result<String, AllocError> {
    entry.to_bibtex_string(alloc)
}

/// Whether a bibliography is settled.
pub(crate) fn settled(alloc: Global, bibliography: &Bibliography) -> Result<String, AllocError> {
    truth(alloc, bibliography.is_settled())
}

/// What is written and read again of a settled bibliography. (It has no contract, so that who calls it proves nothing
/// of the reading again.)
pub(crate) fn read_again(
    alloc: Global,
    bibliography: &Bibliography,
) -> Option<Result<Bibliography, ParseError>> {
    reread(alloc, bibliography)
}

// The text of a bibliography, or that the one that was read again has another.
fn compared(
    alloc: Global,
    bibliography: &Bibliography,
    again: &Bibliography,
) -> Result<String, AllocError> {
    let (text, other) = (biblatex(alloc, bibliography)?, biblatex(alloc, again)?);
    if text == other {
        return Ok(text);
    }
    format!(in alloc; "{}, and not {}", other.as_str(), text.as_str())
}

/// What is written of a settled bibliography, where it is read again and written as the same.
pub(crate) fn again(alloc: Global, bibliography: &Bibliography) -> Result<String, AllocError> {
    match read_again(alloc, bibliography) {
        Some(Ok(again)) => compared(alloc, bibliography, &again),
        Some(Err(error)) => error.to_string(alloc),
        None => String::from_str(alloc, "not settled"),
    }
}

/// The entries of what is written of a settled bibliography and read again.
pub(crate) fn reread_entries(
    alloc: Global,
    bibliography: &Bibliography,
) -> Result<String, AllocError> {
    match read_again(alloc, bibliography) {
        Some(Ok(again)) => entries(alloc, &again),
        Some(Err(error)) => error.to_string(alloc),
        None => String::from_str(alloc, "not settled"),
    }
}
