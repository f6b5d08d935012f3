//! Setters and getters of the fields of titles, whose value is their chunks.

use crate::entries::bibtex;
use bib_chunks::chunk::{Chunks, ChunksRef};
use bib_entry::entry::Entry;
use bib_typed::setting::SetError;
use bib_typed::retrieval::RetrievalError;
use std::alloc::Global;

// Calls the setter of this name, of a title from a main one on, or of another field.
fn set_further(entry: &mut Entry, name: &str, chunks: Chunks) -> Result<Option<Chunks>, SetError> {
    match name {
        "main_subtitle" => entry.set_main_subtitle(chunks),
        "main_title" => entry.set_main_title(chunks),
        "main_title_addon" => entry.set_main_title_addon(chunks),
        "reprint_title" => entry.set_reprint_title(chunks),
        "short_journal" => entry.set_short_journal(chunks),
        "short_series" => entry.set_short_series(chunks),
        "short_title" => entry.set_short_title(chunks),
        "subtitle" => entry.set_subtitle(chunks),
        "title_addon" => entry.set_title_addon(chunks),
        _ => bibtex::set(entry, name, chunks),
    }
}

// What the getter of this name answers, of a title from a main one on, or of another field.
fn get_further<'e>(
    entry: &'e Entry,
    alloc: Global,
    name: &str,
) -> Option<Result<ChunksRef<'e>, RetrievalError>> {
    match name {
        "main_subtitle" => Some(entry.main_subtitle(alloc)),
        "main_title" => Some(entry.main_title(alloc)),
        "main_title_addon" => Some(entry.main_title_addon(alloc)),
        "reprint_title" => Some(entry.reprint_title(alloc)),
        "short_journal" => Some(entry.short_journal(alloc)),
        "short_series" => Some(entry.short_series(alloc)),
        "short_title" => Some(entry.short_title(alloc)),
        "subtitle" => Some(entry.subtitle(alloc)),
        "title_addon" => Some(entry.title_addon(alloc)),
        _ => bibtex::get(entry, alloc, name),
    }
}

/// Calls the setter of this name, here or in a further module.
pub fn set(entry: &mut Entry, name: &str, chunks: Chunks) -> Result<Option<Chunks>, SetError> {
    match name {
        "book_subtitle" => entry.set_book_subtitle(chunks),
        "book_title_addon" => entry.set_book_title_addon(chunks),
        "eventtitle" => entry.set_eventtitle(chunks),
        "eventtitle_addon" => entry.set_eventtitle_addon(chunks),
        "index_title" => entry.set_index_title(chunks),
        "issue_subtitle" => entry.set_issue_subtitle(chunks),
        "issue_title" => entry.set_issue_title(chunks),
        "issue_title_addon" => entry.set_issue_title_addon(chunks),
        "journal_subtitle" => entry.set_journal_subtitle(chunks),
        "journal_title_addon" => entry.set_journal_title_addon(chunks),
        _ => set_further(entry, name, chunks),
    }
}

/// What the getter of this name answers, here or in a further module.
pub fn get<'e>(
    entry: &'e Entry,
    alloc: Global,
    name: &str,
) -> Option<Result<ChunksRef<'e>, RetrievalError>> {
    match name {
        "book_subtitle" => Some(entry.book_subtitle(alloc)),
        "book_title_addon" => Some(entry.book_title_addon(alloc)),
        "eventtitle" => Some(entry.eventtitle(alloc)),
        "eventtitle_addon" => Some(entry.eventtitle_addon(alloc)),
        "index_title" => Some(entry.index_title(alloc)),
        "issue_subtitle" => Some(entry.issue_subtitle(alloc)),
        "issue_title" => Some(entry.issue_title(alloc)),
        "issue_title_addon" => Some(entry.issue_title_addon(alloc)),
        "journal_subtitle" => Some(entry.journal_subtitle(alloc)),
        "journal_title_addon" => Some(entry.journal_title_addon(alloc)),
        _ => get_further(entry, alloc, name),
    }
}
