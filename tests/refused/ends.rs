//! How a call ended, and what is looked at to tell it. Nothing here takes memory but what says so by its result.

use biblatex::{
    Bibliography, Chunk, Chunks, ChunksRef, Entry, EntryType, Items, ParseError, ParseErrorKind,
    Spanned, Text,
};
use std::alloc::{AllocError, Global};

/// How a call ended.
#[derive(Clone, Copy)]
pub enum End {
    /// It gave the right answer.
    Right,
    /// It reported out of memory, and nothing had changed.
    Refused,
    /// It gave another answer, or a refusal left something changed.
    Wrong,
}

/// How a call ended, or that there was no memory for what it is made on.
pub type Answer = Result<End, AllocError>;

/// The end of a call that answered, rightly or not.
pub fn answered(is_right: bool) -> End {
    if is_right { End::Right } else { End::Wrong }
}

/// The end of a call that reported out of memory, where all is as it was or not.
pub fn refused(is_as_it_was: bool) -> End {
    if is_as_it_was {
        End::Refused
    } else {
        End::Wrong
    }
}

/// Whether an error is out of memory, which stands nowhere.
pub fn is_no_memory(error: &ParseError) -> bool {
    error.kind == ParseErrorKind::OutOfMemory && error.span == (0..0)
}

/// The bibliography of a file that is accepted.
pub fn read(alloc: Global, file: &str) -> Result<Bibliography, AllocError> {
    Bibliography::parse(alloc, file).map_err(|_| AllocError)
}

/// One normal chunk.
pub fn normal(alloc: Global, text: &str) -> Result<Chunks, AllocError> {
    let mut chunks = Items::new(alloc);
    chunks.push(Spanned::detached(Chunk::Normal(Text::from_str(alloc, text)?)))?;
    Ok(chunks)
}

/// An entry with these fields, each of one normal chunk.
pub fn entry(alloc: Global, key: &str, fields: &[(&str, &str)]) -> Result<Entry, AllocError> {
    let mut entry = Entry::new(alloc, Text::from_str(alloc, key)?, EntryType::Misc);
    for (name, text) in fields {
        let chunks = normal(alloc, *text)?;
        entry.set(*name, chunks).map_err(|_| AllocError)?;
    }
    Ok(entry)
}

// Whether the chunks are one normal chunk of this text.
fn is_normal(chunks: ChunksRef<'_>, text: &str) -> bool {
    match chunks {
        [only] => matches!(&only.v, Chunk::Normal(found) if found.as_str() == text),
        _ => false,
    }
}

/// Whether an entry has these fields and no others, each of one normal chunk.
pub fn has_fields(entry: &Entry, fields: &[(&str, &str)]) -> bool {
    for (name, text) in fields {
        let is_there = match entry.get(*name) {
            Some(chunks) => is_normal(chunks, *text),
            None => false,
        };
        if !is_there {
            return false;
        }
    }
    entry.fields.len() == fields.len()
}

/// Whether a name points to an entry of this key and with these fields alone.
pub fn finds(library: &Bibliography, name: &str, key: &str, fields: &[(&str, &str)]) -> bool {
    match library.get(name) {
        Some(entry) => entry.key.as_str() == key && has_fields(entry, fields),
        None => false,
    }
}
