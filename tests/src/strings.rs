//! Reads rows, an edit of a text's abbreviations in each line, and prints each with the text that comes of it, or with why it is
//! refused: `expand` writes them out, `collect 2 title journal` makes some of the texts that stand at least twice in these fields. `left 1`
//! prints the references that stay if the entry at the index 1 gets a new key: their entries, fields and names.

use edit_entries::document::RawDocument;
use edit_entries::new_keys::NewKeys;
use edit_strings::collecting::collect;
use edit_strings::errors::ExpandError;
use edit_strings::expanding::expand;
use edit_strings::left_references::left_references;
use std::alloc::{AllocError, Global};
use crate::support::rows::Calls;

pub struct Strings;

// A text with its abbreviations written out.
fn expanded(alloc: Global, document: &RawDocument<'_>) -> Result<String, AllocError> {
    match expand(alloc, document) {
        Ok(new) => Ok(new),
        Err(ExpandError::EarlyUse(index)) => format!(in alloc; "refused: early use at {index}"),
        Err(ExpandError::OutOfMemory) => String::from_str(alloc, "refused: out of memory"),
    }
}

// A text with abbreviations made of values of these fields, after so many.
fn collected(alloc: Global, document: &RawDocument<'_>, words: &str) -> Result<Option<String>, AllocError> {
    let mut words = words.split(' ');
    let Some(Ok(at_least)) = words.next().map(|word| word.parse()) else {
        return Ok(None);
    };
    let mut fields = Vec::new(alloc);
    for word in words {
        fields.push(word)?;
    }
    Ok(Some(collect(alloc, document, &fields, at_least)?))
}

// The references that stay if the entry at an index gets a new key.
fn left(alloc: Global, document: &RawDocument<'_>, index: &str) -> Result<Option<String>, AllocError> {
    let Ok(index) = index.parse() else {
        return Ok(None);
    };
    let mut text = String::new(alloc);
    let left = left_references(alloc, document, NewKeys::One(index, "new"))?;
    for reference in &left {
        let line = format!(in alloc;
            "{} {} {};",
            reference.entry.v.key.v,
            reference.field.key.v,
            reference.name.as_str()
        )?;
        text.push_str(&line)?;
    }
    if text.is_empty() {
        text.push_str("none")?;
    }
    Ok(Some(text))
}

impl Calls for Strings {
    fn answer(alloc: Global, call: &str, text: &str) -> Result<Option<String>, AllocError> {
        let Ok(document) = RawDocument::parse(alloc, text) else {
            return Ok(Some(String::from_str(alloc, "no bibliography")?));
        };
        if let Some(index) = call.strip_prefix("left ") {
            return left(alloc, &document, index);
        }
        match call.strip_prefix("collect ") {
            Some(words) => collected(alloc, &document, words),
            None => match call {
                "expand" => Ok(Some(expanded(alloc, &document)?)),
                _ => Ok(None),
            },
        }
    }
}
