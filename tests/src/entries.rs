//! Reads rows, a call on an entry and an argument in each line, and prints each with what the call answers.

mod aliases;
mod bibtex;
mod chunk_fields;
mod errors;
mod fielded;
pub mod fields;
mod supplements;
mod titles;
mod typed_fields;
mod types;

use crate::entries::fields::entry_of;
use std::alloc::{AllocError, Global};
use crate::support::chunks::chunks_text;
use crate::support::rows::Calls;

pub struct Entries;

impl Calls for Entries {
    fn answer(alloc: Global, call: &str, argument: &str) -> Result<Option<String>, AllocError> {
        match call.split_once(' ') {
            Some(("field", name)) => field(alloc, name, argument),
            Some((how, rest)) => of_types(alloc, how, rest, argument),
            None => errors::answer(alloc, call, argument),
        }
    }
}

// What a call on a type and the name of a field, a setter or a getter answers.
fn of_types(
    alloc: Global,
    how: &str,
    rest: &str,
    argument: &str,
) -> Result<Option<String>, AllocError> {
    let (kind, name) = rest.split_once(' ').unwrap_or((rest, ""));
    match how {
        "set" | "get" => types::of_type(alloc, how, kind, name, argument),
        _ => types::as_type(alloc, how, kind, name, argument),
    }
}

// The chunks of the field of this very name, or a dash.
fn field(alloc: Global, name: &str, fields: &str) -> Result<Option<String>, AllocError> {
    let entry = entry_of(alloc, fields)?;
    match entry.get(name) {
        Some(chunks) => Ok(Some(chunks_text(alloc, chunks)?)),
        None => Ok(Some(String::from_str(alloc, "-")?)),
    }
}
