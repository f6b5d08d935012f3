//! Files that are cut short at every character: each prefix parses or is refused, and the span of a syntax error lies in it.

use crate::bibliographies::parsed;
use biblatex::{ParseError, ParseErrorKind};
use std::alloc::{AllocError, Global};

// Whether an error is one of the file grammar.
fn is_of_syntax(kind: &ParseErrorKind) -> bool {
    matches!(
        kind,
        ParseErrorKind::UnexpectedEof | ParseErrorKind::Unexpected(_) | ParseErrorKind::Expected(_)
    )
}

// Whether an error may be reported of a text: a syntax error lies in it, and no error is out of memory.
fn may_be_reported(error: &ParseError, text: &str) -> bool {
    if is_of_syntax(&error.kind) {
        return error.span.start <= error.span.end && error.span.end <= text.len();
    }
    error.kind != ParseErrorKind::OutOfMemory
}

// What became of a text.
enum Outcome {
    Parsed,
    Refused,
    Wrong,
}

// What becomes of a text.
fn outcome_of(alloc: Global, text: &str) -> Outcome {
    match parsed(alloc, text) {
        Ok(_bibliography) => Outcome::Parsed,
        Err(error) if may_be_reported(&error, text) => Outcome::Refused,
        Err(_) => Outcome::Wrong,
    }
}

// Why the prefixes of a file are not as they should be: one has an error that may not be reported of it, or none is refused.
fn fault_of(alloc: Global, file: &str) -> Result<Option<String>, AllocError> {
    let mut refused = 0usize;
    for end in 0..=file.len() {
        let Some(text) = file.get(..end) else {
            continue;
        };
        match outcome_of(alloc, text) {
            Outcome::Parsed => {}
            Outcome::Refused => refused = refused.saturating_add(1),
            Outcome::Wrong => {
                return Ok(Some(format!(in alloc; "a wrong error of the first {end} bytes")?));
            }
        }
    }
    if refused == 0 {
        return Ok(Some(String::from_str(alloc, "no prefix is refused")?));
    }
    Ok(None)
}

/// `parsed`, or the error of the whole file, if each prefix of it parses or is refused with an error that may be reported of it.
pub(crate) fn cuts(alloc: Global, file: &str) -> Result<String, AllocError> {
    if let Some(fault) = fault_of(alloc, file)? {
        return Ok(fault);
    }
    match parsed(alloc, file) {
        Ok(_bibliography) => String::from_str(alloc, "parsed"),
        Err(error) => error.to_string(alloc),
    }
}
