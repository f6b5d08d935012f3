//! Reads rows, a call of the file grammar and a text in each line, and prints each with what the call answers.

mod characters;
mod errors;
mod keys;
mod reading;
mod recovery;

use std::alloc::{AllocError, Global};
use crate::support::rows::Calls;

pub struct Syntax;

impl Calls for Syntax {
    fn answer(alloc: Global, call: &str, text: &str) -> Result<Option<String>, AllocError> {
        Ok(Some(match call {
            "keys" => keys::keys(alloc, text)?,
            "fronts" => keys::prefixes(alloc, text)?,
            "raw" => reading::raw(alloc, text)?,
            "recover" => recovery::recover(alloc, text)?,
            "parts" => recovery::recover_parts(alloc, text)?,
            "recovered_fronts" => recovery::recovered_prefixes(alloc, text)?,
            "is_key" => characters::key_characters(alloc, text)?,
            "is_id_start" => characters::id_starts(alloc, text)?,
            "is_id_continue" => characters::id_continuations(alloc, text)?,
            _ => return errors::answer(alloc, call, text),
        }))
    }
}
