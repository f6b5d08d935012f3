//! Setters and getters of the fields that have two names, whose value is their chunks.

use crate::entries::supplements;
use bib_chunks::chunk::{Chunks, ChunksRef};
use bib_entry::entry::Entry;
use bib_typed::setting::SetError;
use bib_typed::retrieval::RetrievalError;
use std::alloc::Global;

/// Calls the setter of this name, here or in a further module.
pub fn set(entry: &mut Entry, name: &str, chunks: Chunks) -> Result<Option<Chunks>, SetError> {
    match name {
        "address" => entry.set_address(chunks),
        "location" => entry.set_location(chunks),
        "annotation" => entry.set_annotation(chunks),
        "eprint_type" => entry.set_eprint_type(chunks),
        "eprint_class" => entry.set_eprint_class(chunks),
        "journal" => entry.set_journal(chunks),
        "journal_title" => entry.set_journal_title(chunks),
        "school" => entry.set_school(chunks),
        "institution" => entry.set_institution(chunks),
        _ => supplements::set(entry, name, chunks),
    }
}

/// What the getter of this name answers, here or in a further module.
pub fn get<'e>(
    entry: &'e Entry,
    alloc: Global,
    name: &str,
) -> Option<Result<ChunksRef<'e>, RetrievalError>> {
    match name {
        "address" => Some(entry.address(alloc)),
        "location" => Some(entry.location(alloc)),
        "annotation" => Some(entry.annotation(alloc)),
        "eprint_type" => Some(entry.eprint_type(alloc)),
        "eprint_class" => Some(entry.eprint_class(alloc)),
        "journal" => Some(entry.journal(alloc)),
        "journal_title" => Some(entry.journal_title(alloc)),
        "school" => Some(entry.school(alloc)),
        "institution" => Some(entry.institution(alloc)),
        _ => supplements::get(entry, alloc, name),
    }
}
