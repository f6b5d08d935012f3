//! Reads rows, a call on chunks or on the contents of fields and a text in each line, and prints each with what the
//! call answers.

mod characters;
mod cutting;
mod fields;
mod formatting;
mod reader;

use std::alloc::{AllocError, Global};
use crate::support::rows::Calls;

pub struct Contents;

impl Calls for Contents {
    fn answer(alloc: Global, call: &str, text: &str) -> Result<Option<String>, AllocError> {
        if let Some(answer) = of_fields(alloc, call, text)? {
            return Ok(Some(answer));
        }
        if let Some(answer) = formatting::answer(alloc, call, text)? {
            return Ok(Some(answer));
        }
        cutting::answer(alloc, call, text)
    }
}

// What a call on fields answers.
fn of_fields(alloc: Global, call: &str, text: &str) -> Result<Option<String>, AllocError> {
    Ok(Some(match call {
        "title" => fields::title(alloc, text)?,
        "field" => fields::field(alloc, text)?,
        "field with bytes" => fields::field_with_bytes(alloc, text)?,
        "reader" => reader::fields(alloc, text)?,
        "is_escapable(false, false)" => characters::escapable(alloc, text, false, false)?,
        "is_escapable(false, true)" => characters::escapable(alloc, text, false, true)?,
        "is_escapable(true, false)" => characters::escapable(alloc, text, true, false)?,
        "is_escapable(true, true)" => characters::escapable(alloc, text, true, true)?,
        _ => return Ok(None),
    }))
}
