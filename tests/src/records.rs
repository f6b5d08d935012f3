//! Reads rows, the text of RIS in each line, and prints each with the entries that are made of its records, and what of them is lost.

use bib_from_csl::converting::Converted;
use bib_from_csl::losses::{Loss, LossKind};
use bib_from_ris::converting::{RisError, entries_of_ris};
use std::alloc::{AllocError, Global};
use crate::support::rows::Calls;

pub struct Records;

// Why there are no entries.
fn error_text(alloc: Global, error: &RisError) -> Result<String, AllocError> {
    match error {
        RisError::NoRecord => String::from_str(alloc, "no record"),
        RisError::KeyTwice(index) => format!(in alloc; "key twice in {index}"),
        RisError::NotRead(_) => String::from_str(alloc, "not read again"),
        RisError::OutOfMemory => Err(AllocError),
    }
}

// What becomes of a member, in a word.
fn kind_word(kind: LossKind) -> &'static str {
    match kind {
        LossKind::NoField => "no field",
        LossKind::Changed => "changed",
        LossKind::Partly => "partly",
    }
}

// The members that are lost.
fn losses_text(alloc: Global, losses: &[Loss]) -> Result<String, AllocError> {
    let mut out = String::new(alloc);
    for loss in losses {
        let line = format!(in alloc; "{} {} {};", loss.id.as_str(), loss.name.as_str(), kind_word(loss.kind))?;
        out.push_str(line.as_str())?;
    }
    Ok(out)
}

// The entries, and the members that are lost.
fn converted_text(alloc: Global, converted: &Converted) -> Result<String, AllocError> {
    let mut out = String::from_str(alloc, converted.text.as_str())?;
    let losses = losses_text(alloc, converted.losses.as_slice())?;
    out.push_str(losses.as_str())?;
    Ok(out)
}

impl Calls for Records {
    fn answer(alloc: Global, call: &str, text: &str) -> Result<Option<String>, AllocError> {
        match (call, entries_of_ris(alloc, text)) {
            ("entries", Ok(converted)) => Ok(Some(converted_text(alloc, &converted)?)),
            ("losses", Ok(converted)) => Ok(Some(losses_text(alloc, converted.losses.as_slice())?)),
            (_, Ok(_)) => Ok(None),
            (_, Err(error)) => Ok(Some(error_text(alloc, &error)?)),
        }
    }
}
