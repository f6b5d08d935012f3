//! The fields that a rule for authors or for pages lets an entry take over.

use crate::tables::lists::joined;
use bib_tables::mechanics::{AuthorMode, PagesChapterMode};
use std::alloc::{AllocError, Global};

/// The names that a rule for authors lets an entry take over.
pub fn authors(alloc: Global, variant: &str) -> Result<String, AllocError> {
    let mode = match variant {
        "NoneRequired" => AuthorMode::NoneRequired,
        "OneRequired" => AuthorMode::OneRequired,
        "BothRequired" => AuthorMode::BothRequired,
        "AuthorRequired" => AuthorMode::AuthorRequired,
        "AuthorRequiredEditorOptional" => AuthorMode::AuthorRequiredEditorOptional,
        "EditorRequiredAuthorForbidden" => AuthorMode::EditorRequiredAuthorForbidden,
        _ => return String::from_str(alloc, "there is no such variant"),
    };
    joined(alloc, mode.possible())
}

/// The names that a rule for pages lets an entry take over.
pub fn pages(alloc: Global, variant: &str) -> Result<String, AllocError> {
    let mode = match variant {
        "None" => PagesChapterMode::None,
        "OneRequired" => PagesChapterMode::OneRequired,
        "BothOptional" => PagesChapterMode::BothOptional,
        "BothForbidden" => PagesChapterMode::BothForbidden,
        "PagesOptional" => PagesChapterMode::PagesOptional,
        "PagesRequired" => PagesChapterMode::PagesRequired,
        _ => return String::from_str(alloc, "there is no such variant"),
    };
    joined(alloc, mode.possible())
}
