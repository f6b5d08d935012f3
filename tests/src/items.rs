//! Reads rows, the text of a bibliography in each line, and prints each with its first entry as an item of CSL-JSON.

use bib_csl::objects::{content_text, item_text, item_text_in};
use bib_csl::making::item_of;
use bib_csl::sentence_items::TitleCase;
use biblatex::{Bibliography, Entry, ParseError};
use std::alloc::{AllocError, Global};
use crate::support::rows::Calls;

pub struct CslItems;

// The bibliography of a file. (It has no contract, so that who calls it proves nothing of the reading again.)
fn parsed(alloc: Global, file: &str) -> Result<Bibliography, ParseError> {
    Bibliography::parse(alloc, file)
}

// What the first variable of an entry's item holds, as text.
fn first_content(alloc: Global, entry: &Entry) -> Result<String, AllocError> {
    let item = item_of(alloc, entry)?;
    match item.fields.iter().next() {
        Some(field) => content_text(alloc, &field.content),
        None => String::from_str(alloc, "no variable"),
    }
}

// Returns the item of the first entry as text, with titles as written or in sentence case; or the text of its first variable; or the
// number of its variables.
fn first(alloc: Global, call: &str, text: &str) -> Result<Option<String>, AllocError> {
    let Ok(library) = parsed(alloc, text) else {
        return Ok(Some(String::from_str(alloc, "no bibliography")?));
    };
    let Some(entry) = library.iter().next() else {
        return Ok(Some(String::from_str(alloc, "no entry")?));
    };
    match call {
        "item" => Ok(Some(item_text(alloc, entry)?)),
        "sentence" => Ok(Some(item_text_in(alloc, TitleCase::Sentence, entry)?)),
        "content" => Ok(Some(first_content(alloc, entry)?)),
        "variables" => Ok(Some(item_of(alloc, entry)?.fields.len().to_string(alloc)?)),
        _ => Ok(None),
    }
}

impl Calls for CslItems {
    fn answer(alloc: Global, call: &str, text: &str) -> Result<Option<String>, AllocError> {
        first(alloc, call, text)
    }
}
