//! What can be read of a file, and what is passed over.

use crate::syntax::keys::{barred, keys};
use bib_syntax::raw::{Pair, RawBibliography, RawRecovery, SkippedBlock};
use std::alloc::{AllocError, Global};

// Adds an error, and the stretch that is passed over for it.
fn push_skipped(
    out: &mut String,
    alloc: Global,
    block: &SkippedBlock,
) -> Result<(), AllocError> {
    let span = &block.span;
    let text = format!(in alloc; "; {} over {}-{}", block.error, span.start, span.end)?;
    Ok(out.push_str(text.as_str())?)
}

// What was read, and what was passed over.
fn text_of(alloc: Global, found: &RawRecovery<'_>) -> Result<String, AllocError> {
    let mut out = barred(alloc, found.raw.entries.as_slice())?;
    for block in &found.skipped {
        push_skipped(&mut out, alloc, block)?;
    }
    Ok(out)
}

/// The keys of the entries that can be read, a bar before each; then each error with the stretch that is passed over for it.
pub fn recover(alloc: Global, file: &str) -> Result<String, AllocError> {
    text_of(alloc, &RawBibliography::recover(alloc, file)?)
}

// Adds the names of fields, a space before each.
fn push_names(out: &mut String, fields: &[Pair<'_>]) -> Result<(), AllocError> {
    for field in fields {
        out.push(' ')?;
        out.push_str(field.key.v)?;
    }
    Ok(())
}

/// What a full recovery has: the key of each entry with the names of its fields, a bar before each, and the names of the
/// definitions after a semicolon.
pub fn recover_parts(alloc: Global, file: &str) -> Result<String, AllocError> {
    let found = RawBibliography::recover_parts(alloc, file)?;
    let mut out = String::new(alloc);
    for entry in &found.raw.entries {
        out.push('|')?;
        out.push_str(entry.v.key.v)?;
        push_names(&mut out, &entry.v.fields)?;
    }
    if !found.raw.abbreviations.is_empty() {
        out.push(';')?;
        push_names(&mut out, &found.raw.abbreviations)?;
    }
    Ok(out)
}

// Whether each error and its stretch lie in a text, and each stretch after those before.
fn are_in_order(found: &RawRecovery<'_>, length: usize) -> bool {
    let mut last = 0;
    for block in &found.skipped {
        let (error, span) = (&block.error.span, &block.span);
        let is_here = last <= span.start && span.start < span.end && span.end <= length;
        if !is_here || error.start < span.start || error.end < error.start || length < error.end {
            return false;
        }
        last = span.end;
    }
    true
}

// Whether what is recovered of a text agrees with what the file grammar reads of it.
fn agrees(alloc: Global, text: &str) -> Result<bool, AllocError> {
    let found = RawBibliography::recover(alloc, text)?;
    if !are_in_order(&found, text.len()) {
        return Ok(false);
    }
    let parsed = keys(alloc, text)?;
    match found.skipped.as_slice().first() {
        None => Ok(text_of(alloc, &found)? == parsed),
        Some(block) => Ok(format!(in alloc; "{}", block.error)? == parsed),
    }
}

/// Whether what is recovered of each prefix of a text is what the file grammar reads, or else begins with its error.
pub fn recovered_prefixes(alloc: Global, text: &str) -> Result<String, AllocError> {
    for length in 0..=text.len() {
        if let Some(prefix) = text.get(..length) {
            if !agrees(alloc, prefix)? {
                return Ok(format!(in alloc; "{length} bytes")?);
            }
        }
    }
    String::from_str(alloc, "each agrees")
}
