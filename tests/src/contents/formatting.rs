//! Chunks, written and formatted.

use bib_chunks::chunk::{format_sentence, format_styled, format_verbatim, value_text, whole_span};
use bib_chunks::settling::is_settled;
use std::alloc::{AllocError, Global};
use crate::support::chunks::chunks_of;

// The value that is written for chunks.
fn value(alloc: Global, text: &str, is_verbatim: bool) -> Result<String, AllocError> {
    let chunks = chunks_of(alloc, text)?;
    value_text(alloc, chunks.as_slice(), is_verbatim)
}

// What is written for each chunk by itself.
fn by_themselves(alloc: Global, text: &str, is_verbatim: bool) -> Result<String, AllocError> {
    let mut out = String::new(alloc);
    for chunk in &chunks_of(alloc, text)? {
        let written = chunk.v.to_biblatex_string(alloc, is_verbatim)?;
        out.push_str(written.as_str())?;
    }
    Ok(out)
}

// Whether the value of chunks is settled.
fn settled(alloc: Global, text: &str, is_verbatim: bool) -> Result<String, AllocError> {
    let chunks = chunks_of(alloc, text)?;
    let answer = if is_settled(chunks.as_slice(), is_verbatim) {
        "true"
    } else {
        "false"
    };
    String::from_str(alloc, answer)
}

// Chunks with their letters kept.
fn verbatim(alloc: Global, text: &str) -> Result<String, AllocError> {
    let chunks = chunks_of(alloc, text)?;
    format_verbatim(alloc, chunks.as_slice())
}

// Chunks as a text that is styled.
fn styled(alloc: Global, text: &str) -> Result<String, AllocError> {
    let chunks = chunks_of(alloc, text)?;
    format_styled(alloc, chunks.as_slice())
}

// Chunks as a sentence.
fn sentence(alloc: Global, text: &str) -> Result<String, AllocError> {
    let chunks = chunks_of(alloc, text)?;
    format_sentence(alloc, chunks.as_slice())
}

// The bytes from the first chunk to the last.
fn bytes(alloc: Global, text: &str) -> Result<String, AllocError> {
    let chunks = chunks_of(alloc, text)?;
    let span = whole_span(chunks.as_slice());
    Ok(format!(in alloc; "{}-{}", span.start, span.end)?)
}

/// What a call answers for the chunks of a text.
pub fn answer(alloc: Global, call: &str, text: &str) -> Result<Option<String>, AllocError> {
    Ok(Some(match call {
        "value_text" => value(alloc, text, false)?,
        "value_text(verbatim)" => value(alloc, text, true)?,
        "to_biblatex_string" => by_themselves(alloc, text, false)?,
        "to_biblatex_string(verbatim)" => by_themselves(alloc, text, true)?,
        "is_settled" => settled(alloc, text, false)?,
        "is_settled(verbatim)" => settled(alloc, text, true)?,
        "format_verbatim" => verbatim(alloc, text)?,
        "format_styled" => styled(alloc, text)?,
        "format_sentence" => sentence(alloc, text)?,
        "whole_span" => bytes(alloc, text)?,
        _ => return Ok(None),
    }))
}
