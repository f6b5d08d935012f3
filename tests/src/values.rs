//! Reads rows, a call on typed values and an argument in each line, and prints each with what the call answers.

mod dates;
mod errors;
mod made;
mod notation;
mod orders;
mod times;
mod typed;
mod types;

use std::alloc::{AllocError, Global};
use crate::support::rows::Calls;

pub struct Values;

impl Calls for Values {
    fn answer(alloc: Global, call: &str, argument: &str) -> Result<Option<String>, AllocError> {
        match call.split_once(' ') {
            Some(("compare", kind)) => orders::answer(alloc, kind, argument),
            Some(("made", kind)) => made::answer(alloc, kind, argument),
            Some((how, kind)) => types::answer(alloc, how, kind, argument),
            None => of_functions(alloc, call, argument),
        }
    }
}

// What a function answers.
fn of_functions(alloc: Global, call: &str, argument: &str) -> Result<Option<String>, AllocError> {
    if let Some(answer) = dates::answer(alloc, call, argument)? {
        return Ok(Some(answer));
    }
    if let Some(answer) = times::answer(alloc, call, argument)? {
        return Ok(Some(answer));
    }
    errors::answer(alloc, call, argument)
}
