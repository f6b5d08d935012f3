//! What errors print.

use biblatex::{Chunks, Entry, EntryType, InsertError, SetError, Text, WriteError};
use std::alloc::{AllocError, Global};

// An error that says that an entry was not added.
fn insert_error(alloc: Global) -> Result<InsertError, AllocError> {
    let key = Text::from_str(alloc, "k")?;
    Ok(InsertError {
        entry: Entry::new(alloc, key, EntryType::Misc),
    })
}

/// What the error of this name prints.
pub(crate) fn error(alloc: Global, name: &str) -> Result<String, AllocError> {
    match name {
        "WriteError::Refused" => format!(in alloc; "{}", WriteError::Refused),
        "WriteError::OutOfMemory" => format!(in alloc; "{}", WriteError::OutOfMemory),
        "InsertError" => format!(in alloc; "{}", insert_error(alloc)?),
        "SetError" => {
            let chunks = Chunks::new(alloc);
            format!(in alloc; "{}", SetError { chunks })
        }
        _ => String::from_str(alloc, "there is no such error"),
    }
}
