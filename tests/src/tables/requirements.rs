//! What types of entries ask for.

use crate::tables::lists::joined;
use bib_tables::mechanics::{EntryType, Requirements};
use std::alloc::{AllocError, Global};

// What the type of a name asks for.
fn asked_by(alloc: Global, name: &str) -> Result<Requirements, AllocError> {
    EntryType::new(alloc, name)?.requirements(alloc)
}

/// The fields that a type requires.
pub fn required(alloc: Global, name: &str) -> Result<String, AllocError> {
    joined(alloc, asked_by(alloc, name)?.required.as_slice())
}

/// The fields that an entry of a type may have.
pub fn optional(alloc: Global, name: &str) -> Result<String, AllocError> {
    joined(alloc, asked_by(alloc, name)?.optional.as_slice())
}

/// The fields that an entry of a type must not have.
pub fn forbidden(alloc: Global, name: &str) -> Result<String, AllocError> {
    joined(alloc, asked_by(alloc, name)?.forbidden.as_slice())
}

// The rules for authors, pages and dates.
fn modes_text(alloc: Global, asked: &Requirements) -> Result<String, AllocError> {
    let authors = asked.author_eds_field;
    let pages = asked.page_chapter_field;
    let date = if asked.needs_date { "date" } else { "no date" };
    Ok(format!(in alloc; "{authors:?} / {pages:?} / {date}")?)
}

/// A type's rules for authors, pages and dates.
pub fn modes(alloc: Global, name: &str) -> Result<String, AllocError> {
    modes_text(alloc, &asked_by(alloc, name)?)
}

/// No requirements: how many fields are required, optional and forbidden, and the rules.
pub fn none(alloc: Global) -> Result<String, AllocError> {
    let none = Requirements::new(alloc);
    let required = none.required.len();
    let optional = none.optional.len();
    let forbidden = none.forbidden.len();
    let modes = modes_text(alloc, &none)?;
    Ok(format!(in alloc;
        "{required} / {optional} / {forbidden} / {}",
        modes.as_str()
    )?)
}
