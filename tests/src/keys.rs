//! Reads rows, a pattern and a file in each line, and prints each with the keys that the pattern gives for the entries of the file.

use crate::support::rows::Calls;
use bib_keys::{KeyPattern, PatternError};
use bib_text::text::Text;
use biblatex::{Bibliography, ParseError};
use std::alloc::{AllocError, Global};

pub struct Keys;

// The keys, with spaces between them.
fn spaced(alloc: Global, keys: &[Text]) -> Result<String, AllocError> {
    let mut out = String::new(alloc);
    for key in keys {
        if !out.is_empty() {
            out.push(' ')?;
        }
        out.push_str(key.as_str())?;
    }
    Ok(out)
}

// The keys of the entries of a file.
fn keys_of(alloc: Global, pattern: &KeyPattern, file: &str) -> Result<String, ParseError> {
    let bibliography = Bibliography::parse(alloc, file)?;
    let mut entries = Vec::new(alloc);
    for entry in bibliography.iter() {
        entries.push(entry.clone()?)?;
    }
    let keys = pattern.keys(alloc, &entries)?;
    Ok(spaced(alloc, &keys)?)
}

// An error in a file, which no row has.
fn no_file(alloc: Global, error: &ParseError) -> Result<String, AllocError> {
    format!(in alloc; "{error:?}")
}

impl Calls for Keys {
    fn answer(alloc: Global, call: &str, text: &str) -> Result<Option<String>, AllocError> {
        match KeyPattern::parse(alloc, call) {
            Ok(pattern) => match keys_of(alloc, &pattern, text) {
                Ok(keys) => Ok(Some(keys)),
                Err(error) => Ok(Some(no_file(alloc, &error)?)),
            },
            Err(PatternError::OutOfMemory) => Err(AllocError),
            Err(error) => Ok(Some(format!(in alloc; "{error}")?)),
        }
    }
}
