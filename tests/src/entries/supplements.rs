//! Setters and getters of the further fields that BibLaTeX has, whose value is their chunks.

use bib_chunks::chunk::{Chunks, ChunksRef};
use bib_entry::entry::Entry;
use bib_typed::setting::SetError;
use bib_typed::retrieval::RetrievalError;
use std::alloc::Global;

// Calls the setter of this name, of the further fields from options on.
fn set_further(entry: &mut Entry, name: &str, chunks: Chunks) -> Result<Option<Chunks>, SetError> {
    match name {
        "label" => entry.set_label(chunks),
        "library" => entry.set_library(chunks),
        "name_addon" => entry.set_name_addon(chunks),
        "options" => entry.set_options(chunks),
        "page_total" => entry.set_page_total(chunks),
        "part" => entry.set_part(chunks),
        "pubstate" => entry.set_pubstate(chunks),
        "shorthand" => entry.set_shorthand(chunks),
        "shorthand_intro" => entry.set_shorthand_intro(chunks),
        "venue" => entry.set_venue(chunks),
        "version" => entry.set_version(chunks),
        _ => Err(SetError { chunks }),
    }
}

// What the getter of this name answers, of the further fields from options on.
fn get_further<'e>(
    entry: &'e Entry,
    alloc: Global,
    name: &str,
) -> Option<Result<ChunksRef<'e>, RetrievalError>> {
    match name {
        "label" => Some(entry.label(alloc)),
        "library" => Some(entry.library(alloc)),
        "name_addon" => Some(entry.name_addon(alloc)),
        "options" => Some(entry.options(alloc)),
        "page_total" => Some(entry.page_total(alloc)),
        "part" => Some(entry.part(alloc)),
        "pubstate" => Some(entry.pubstate(alloc)),
        "shorthand" => Some(entry.shorthand(alloc)),
        "shorthand_intro" => Some(entry.shorthand_intro(alloc)),
        "venue" => Some(entry.venue(alloc)),
        "version" => Some(entry.version(alloc)),
        _ => None,
    }
}

/// Calls the setter of this name.
pub fn set(entry: &mut Entry, name: &str, chunks: Chunks) -> Result<Option<Chunks>, SetError> {
    match name {
        "abstract_" => entry.set_abstract_(chunks),
        "addendum" => entry.set_addendum(chunks),
        "eid" => entry.set_eid(chunks),
        "entry_subtype" => entry.set_entry_subtype(chunks),
        "isan" => entry.set_isan(chunks),
        "isbn" => entry.set_isbn(chunks),
        "ismn" => entry.set_ismn(chunks),
        "isrn" => entry.set_isrn(chunks),
        "issn" => entry.set_issn(chunks),
        "issue" => entry.set_issue(chunks),
        "iswc" => entry.set_iswc(chunks),
        "keywords" => entry.set_keywords(chunks),
        _ => set_further(entry, name, chunks),
    }
}

/// What the getter of this name answers.
pub fn get<'e>(
    entry: &'e Entry,
    alloc: Global,
    name: &str,
) -> Option<Result<ChunksRef<'e>, RetrievalError>> {
    match name {
        "abstract_" => Some(entry.abstract_(alloc)),
        "addendum" => Some(entry.addendum(alloc)),
        "eid" => Some(entry.eid(alloc)),
        "entry_subtype" => Some(entry.entry_subtype(alloc)),
        "isan" => Some(entry.isan(alloc)),
        "isbn" => Some(entry.isbn(alloc)),
        "ismn" => Some(entry.ismn(alloc)),
        "isrn" => Some(entry.isrn(alloc)),
        "issn" => Some(entry.issn(alloc)),
        "issue" => Some(entry.issue(alloc)),
        "iswc" => Some(entry.iswc(alloc)),
        "keywords" => Some(entry.keywords(alloc)),
        _ => get_further(entry, alloc, name),
    }
}
