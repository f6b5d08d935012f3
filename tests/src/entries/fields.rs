//! Entries of texts: `title=N<a>[0-1];year=2020` are two fields, each with its chunks.

use bib_entry::entry::Entry;
use bib_tables::mechanics::EntryType;
use bib_text::text::Text;
use std::alloc::{AllocError, Global};
use crate::support::chunks::{chunks_of, push_chunks};

/// The entry that has these fields.
pub fn entry_of(alloc: Global, fields: &str) -> Result<Entry, AllocError> {
    let key = Text::from_str(alloc, "k")?;
    let mut entry = Entry::new(alloc, key, EntryType::Misc);
    for field in fields.split(';') {
        if let Some((name, text)) = field.split_once('=') {
            let chunks = chunks_of(alloc, text)?;
            let _had = entry.set(name, chunks).map_err(|_| AllocError)?;
        }
    }
    Ok(entry)
}

/// The fields of an entry in the order of their names' bytes.
pub fn fields_text(alloc: Global, entry: &Entry) -> Result<String, AllocError> {
    let mut out = String::new(alloc);
    for (name, chunks) in entry.fields.iter() {
        if !out.is_empty() {
            out.push(';')?;
        }
        out.push_str(name.as_str())?;
        out.push('=')?;
        push_chunks(&mut out, alloc, chunks.as_slice())?;
    }
    Ok(out)
}
