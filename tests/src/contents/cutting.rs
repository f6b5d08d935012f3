//! Chunks, cut at commas, at words `and` and at a separator.

use bib_chunks::chunk::{Chunks, cuts, format_verbatim};
use bib_chunks::lists;
use bib_text::items::Items;
use std::alloc::{AllocError, Global};
use crate::support::chunks::{chunks_of, push_chunks};

// The parts between the commas.
fn comma_list(alloc: Global, text: &str) -> Result<Items<Chunks>, AllocError> {
    let chunks = chunks_of(alloc, text)?;
    cuts::comma_list(alloc, chunks.as_slice())
}

// The parts between the words `and`.
fn and_list(alloc: Global, text: &str) -> Result<Items<Chunks>, AllocError> {
    let chunks = chunks_of(alloc, text)?;
    cuts::and_list(alloc, chunks.as_slice())
}

// The texts between the commas of a text that is styled, a bar before each.
fn comma_texts(alloc: Global, text: &str) -> Result<String, AllocError> {
    let chunks = chunks_of(alloc, text)?;
    let mut out = String::new(alloc);
    for text in &lists::comma_texts(alloc, chunks.as_slice())? {
        out.push('|')?;
        out.push_str(text.as_str())?;
    }
    Ok(out)
}

// The two parts at the first separator: the first character of the text is the separator, and its chunks stand after a
// blank. No parts where there is no separator.
fn cut_at(alloc: Global, text: &str) -> Result<Items<Chunks>, AllocError> {
    let separator = text.chars().next().unwrap_or(' ');
    let chunks = chunks_of(alloc, text.split_once(' ').map_or("", |it| it.1))?;
    let mut parts = Items::new(alloc);
    if let Some((before, after)) = cuts::cut_at(alloc, chunks.as_slice(), separator)? {
        parts.push(before)?;
        parts.push(after)?;
    }
    Ok(parts)
}

// Parts, formatted with their letters kept, a bar before each.
fn formatted(alloc: Global, parts: &Items<Chunks>) -> Result<String, AllocError> {
    let mut out = String::new(alloc);
    for part in parts {
        let text = format_verbatim(alloc, part.as_slice())?;
        out.push('|')?;
        out.push_str(text.as_str())?;
    }
    Ok(out)
}

// The chunks of parts with their bytes, a bar before each part.
fn placed(alloc: Global, parts: &Items<Chunks>) -> Result<String, AllocError> {
    let mut out = String::new(alloc);
    for part in parts {
        out.push('|')?;
        push_chunks(&mut out, alloc, part.as_slice())?;
    }
    Ok(out)
}

/// What a call answers for the chunks of a text.
pub fn answer(alloc: Global, call: &str, text: &str) -> Result<Option<String>, AllocError> {
    Ok(Some(match call {
        "comma_list" => formatted(alloc, &comma_list(alloc, text)?)?,
        "comma_list with bytes" => placed(alloc, &comma_list(alloc, text)?)?,
        "comma_texts" => comma_texts(alloc, text)?,
        "and_list" => formatted(alloc, &and_list(alloc, text)?)?,
        "and_list with bytes" => placed(alloc, &and_list(alloc, text)?)?,
        "cut_at" => formatted(alloc, &cut_at(alloc, text)?)?,
        "cut_at with bytes" => placed(alloc, &cut_at(alloc, text)?)?,
        _ => return Ok(None),
    }))
}
