//! Setters and getters of the fields that BibTeX has, whose value is their chunks.

use crate::entries::aliases;
use bib_chunks::chunk::{Chunks, ChunksRef};
use bib_entry::entry::Entry;
use bib_typed::setting::SetError;
use bib_typed::retrieval::RetrievalError;
use std::alloc::Global;

/// Calls the setter of this name, here or in a further module.
pub fn set(entry: &mut Entry, name: &str, chunks: Chunks) -> Result<Option<Chunks>, SetError> {
    match name {
        "book_title" => entry.set_book_title(chunks),
        "chapter" => entry.set_chapter(chunks),
        "how_published" => entry.set_how_published(chunks),
        "note" => entry.set_note(chunks),
        "number" => entry.set_number(chunks),
        "series" => entry.set_series(chunks),
        "title" => entry.set_title(chunks),
        _ => aliases::set(entry, name, chunks),
    }
}

/// What the getter of this name answers, here or in a further module.
pub fn get<'e>(
    entry: &'e Entry,
    alloc: Global,
    name: &str,
) -> Option<Result<ChunksRef<'e>, RetrievalError>> {
    match name {
        "book_title" => Some(entry.book_title(alloc)),
        "chapter" => Some(entry.chapter(alloc)),
        "how_published" => Some(entry.how_published(alloc)),
        "note" => Some(entry.note(alloc)),
        "number" => Some(entry.number(alloc)),
        "series" => Some(entry.series(alloc)),
        "title" => Some(entry.title(alloc)),
        _ => aliases::get(entry, alloc, name),
    }
}
