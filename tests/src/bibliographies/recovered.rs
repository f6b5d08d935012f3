//! What is read of a file that can't be read whole, and what is wrong with it.

use crate::bibliographies::entries::entries;
use biblatex::{Bibliography, BibliographyRecovery};
use std::alloc::{AllocError, Global};

// Adds the errors after what was read.
fn push_errors(
    out: &mut String,
    alloc: Global,
    found: &BibliographyRecovery,
) -> Result<(), AllocError> {
    for block in &found.skipped {
        let text = format!(in alloc; "; {}", block.error)?;
        out.push_str(text.as_str())?;
    }
    for error in &found.errors {
        let text = format!(in alloc; "; {error}")?;
        out.push_str(text.as_str())?;
    }
    Ok(())
}

/// The entries that are read, and each error after them.
pub(crate) fn recover(alloc: Global, file: &str) -> Result<String, AllocError> {
    let found = Bibliography::recover(alloc, file)?;
    let mut out = entries(alloc, &found.bibliography)?;
    push_errors(&mut out, alloc, &found)?;
    Ok(out)
}

/// For each entry that is kept, its index among those that are read of the file.
pub(crate) fn origins(alloc: Global, file: &str) -> Result<String, AllocError> {
    let found = Bibliography::recover(alloc, file)?;
    let mut out = String::new(alloc);
    for origin in &found.origins {
        if !out.is_empty() {
            out.push_str(" ")?;
        }
        let text = format!(in alloc; "{origin}")?;
        out.push_str(text.as_str())?;
    }
    Ok(out)
}

// Whether an error that has this text is among those of what was read.
fn has_error(alloc: Global, found: &BibliographyRecovery, text: &str) -> Result<bool, AllocError> {
    if let Some(block) = found.skipped.as_slice().first() {
        return Ok(block.error.to_string(alloc)?.as_str() == text);
    }
    for error in &found.errors {
        if error.to_string(alloc)?.as_str() == text {
            return Ok(true);
        }
    }
    Ok(false)
}

// Whether what is recovered of a text is what `parse` reads, or has the error that `parse` reports.
fn agrees(alloc: Global, text: &str) -> Result<bool, AllocError> {
    let found = Bibliography::recover(alloc, text)?;
    match Bibliography::parse(alloc, text) {
        Ok(read) => {
            let has_none = found.skipped.is_empty() && found.errors.is_empty();
            Ok(has_none && entries(alloc, &found.bibliography)? == entries(alloc, &read)?)
        }
        Err(error) => {
            error.unless_out_of_memory()?;
            has_error(alloc, &found, error.to_string(alloc)?.as_str())
        }
    }
}

/// Whether what is recovered of each prefix of a text is what `parse` reads, or has the error that `parse` reports.
pub(crate) fn recovered_prefixes(alloc: Global, text: &str) -> Result<String, AllocError> {
    for length in 0..=text.len() {
        if let Some(prefix) = text.get(..length) {
            if !agrees(alloc, prefix)? {
                return Ok(format!(in alloc; "{length} bytes")?);
            }
        }
    }
    String::from_str(alloc, "each agrees")
}
