//! Chunks as texts: `N<a >[0-2]V<b>[3-4]` is a normal and a verbatim chunk with their bytes, `M<x>[]` math that is detached.

use bib_chunks::chunk::{Chunk, Chunks, ChunksRef, Span, Spanned};
use bib_text::items::Items;
use bib_text::text::Text;
use std::alloc::{AllocError, Global};

// A chunk as a text.
fn push_chunk(out: &mut String, alloc: Global, chunk: &Spanned<Chunk>) -> Result<(), AllocError> {
    out.push_str(match chunk.v {
        Chunk::Normal(_) => "N<",
        Chunk::Verbatim(_) => "V<",
        Chunk::Math(_) => "M<",
    })?;
    out.push_str(chunk.v.get())?;
    let span = &chunk.span;
    if *span == (usize::MAX..usize::MAX) {
        return Ok(out.push_str(">[]")?);
    }
    let bytes = format!(in alloc; ">[{}-{}]", span.start, span.end)?;
    Ok(out.push_str(bytes.as_str())?)
}

/// Adds chunks as texts, one after another.
pub fn push_chunks(
    out: &mut String,
    alloc: Global,
    chunks: ChunksRef<'_>,
) -> Result<(), AllocError> {
    for chunk in chunks {
        push_chunk(out, alloc, chunk)?;
    }
    Ok(())
}

/// Chunks as a text.
pub fn chunks_text(alloc: Global, chunks: ChunksRef<'_>) -> Result<String, AllocError> {
    let mut out = String::new(alloc);
    push_chunks(&mut out, alloc, chunks)?;
    Ok(out)
}

// A chunk as its kind and text.
fn push_kind(out: &mut String, chunk: &Chunk) -> Result<(), AllocError> {
    out.push_str(match chunk {
        Chunk::Normal(_) => "N<",
        Chunk::Verbatim(_) => "V<",
        Chunk::Math(_) => "M<",
    })?;
    out.push_str(chunk.get())?;
    Ok(out.push('>')?)
}

/// Chunks as kinds and texts alone: `N<a >V<b>`.
pub fn kinds_text(alloc: Global, chunks: ChunksRef<'_>) -> Result<String, AllocError> {
    let mut out = String::new(alloc);
    for chunk in chunks {
        push_kind(&mut out, &chunk.v)?;
    }
    Ok(out)
}

/// Chunks that have a text, as kinds and texts alone.
pub fn styled_text(alloc: Global, chunks: ChunksRef<'_>) -> Result<String, AllocError> {
    let mut out = String::new(alloc);
    for chunk in chunks {
        if !chunk.v.get().is_empty() {
            push_kind(&mut out, &chunk.v)?;
        }
    }
    Ok(out)
}

// A chunk of the kind that a letter stands for.
fn chunk_of(alloc: Global, kind: char, text: &str) -> Result<Chunk, AllocError> {
    let text = Text::from_str(alloc, text)?;
    Ok(match kind {
        'V' => Chunk::Verbatim(text),
        'M' => Chunk::Math(text),
        _ => Chunk::Normal(text),
    })
}

// The letter at the end of a text.
fn last_letter(text: &str) -> char {
    text.chars().next_back().unwrap_or('N')
}

// The bytes that stand in brackets after a chunk; those of a text at a place where none do.
fn bytes_of(after: &str, at: usize, text: &str) -> Span {
    let Some((bytes, _)) = after.strip_prefix('[').and_then(|it| it.split_once(']')) else {
        return at..at.saturating_add(text.len());
    };
    match bytes.split_once('-') {
        Some((start, end)) => start.parse().unwrap_or(0)..end.parse().unwrap_or(0),
        None => usize::MAX..usize::MAX,
    }
}

/// The chunks of a text, one after another where no bytes are given. A text of no chunks is one normal chunk.
pub fn chunks_of(alloc: Global, text: &str) -> Result<Chunks, AllocError> {
    let mut all = Items::new(alloc);
    let mut at = 0usize;
    let mut kind = last_letter(text.split_once('<').map_or("", |it| it.0));
    for piece in text.split('<').skip(1) {
        let (inner, after) = piece.split_once('>').unwrap_or((piece, ""));
        let span = bytes_of(after, at, inner);
        at = span.end;
        let chunk = chunk_of(alloc, kind, inner)?;
        all.push(Spanned::new(chunk, span))?;
        kind = last_letter(after);
    }
    if all.is_empty() && !text.is_empty() {
        let chunk = chunk_of(alloc, 'N', text)?;
        all.push(Spanned::new(chunk, 0..text.len()))?;
    }
    Ok(all)
}
