//! Bibliographies of raw entries, some of which no file gives.

use crate::bibliographies::entries::entries as entries_text;
use crate::bibliographies::truth;
use biblatex::{
    Bibliography, Chunk, Pair, ParseError, RawBibliography, RawChunk, RawEntry, Span, Spanned,
};
use std::alloc::{AllocError, Global};
use crate::support::chunks::{chunks_of, chunks_text};

// The raw reading of a file. (It and the next two have no contracts, so that who calls them proves nothing again.)
fn raw_of(alloc: Global, file: &str) -> Result<RawBibliography<'_>, ParseError> {
    RawBibliography::parse(alloc, file)
}

// The bibliography of a raw reading.
fn from_raw(alloc: Global, raw: RawBibliography<'_>) -> Result<Bibliography, ParseError> {
    Bibliography::from_raw(alloc, raw)
}

// The bibliography of a raw reading, and its turns.
fn from_raw_counted(
    alloc: Global,
    raw: RawBibliography<'_>,
) -> Result<(Bibliography, Vec<usize>), ParseError> {
    Bibliography::from_raw_counted(alloc, raw)
}

/// The entries of a file by way of its raw reading.
pub(crate) fn entries(alloc: Global, file: &str) -> Result<String, ParseError> {
    let bibliography = from_raw(alloc, raw_of(alloc, file)?)?;
    Ok(entries_text(alloc, &bibliography)?)
}

/// The entries of a file by way of its raw reading, and how many turns there were.
pub(crate) fn counted_entries(alloc: Global, file: &str) -> Result<String, ParseError> {
    let (bibliography, turns) = from_raw_counted(alloc, raw_of(alloc, file)?)?;
    let entries = entries_text(alloc, &bibliography)?;
    let count = turns.len();
    Ok(format!(in alloc; "{}; {count} turns", entries.as_str())?)
}

/// The turns in which the entries of a file took over what they inherit.
pub(crate) fn turns(alloc: Global, file: &str) -> Result<String, ParseError> {
    let (_bibliography, turns) = from_raw_counted(alloc, raw_of(alloc, file)?)?;
    let mut out = String::new(alloc);
    for turn in &turns {
        if !out.is_empty() {
            out.push(' ')?;
        }
        out.push_str(turn.to_string(alloc)?.as_str())?;
    }
    Ok(out)
}

// An entry without fields, at these bytes.
fn entry<'s>(alloc: Global, key: &'s str, span: Span) -> Spanned<RawEntry<'s>> {
    let entry = RawEntry {
        key: Spanned::zero(key),
        kind: Spanned::zero("misc"),
        fields: Vec::new(alloc),
    };
    Spanned::new(entry, span)
}

// The bibliography of these entries alone.
fn of_entries(
    alloc: Global,
    entries: Vec<Spanned<RawEntry<'_>>>,
) -> Result<Bibliography, ParseError> {
    let raw = RawBibliography {
        preamble: String::new(alloc),
        entries,
        abbreviations: Vec::new(alloc),
    };
    from_raw(alloc, raw)
}

// The bibliography of one entry with one field, the value of which is one element.
fn of_element(
    alloc: Global,
    key: &str,
    name: &str,
    element: Spanned<RawChunk<'_>>,
) -> Result<Bibliography, ParseError> {
    let mut value = Vec::new(alloc);
    value.push(element)?;
    let mut entry = entry(alloc, key, 0..0);
    let pair = Pair::new(Spanned::zero(name), Spanned::zero(value));
    entry.v.fields.push(pair)?;
    let mut entries = Vec::new(alloc);
    entries.push(entry)?;
    of_entries(alloc, entries)
}

// An element of a chunk's text and place: `A<b>[3-4]` is the name of an abbreviation, `N<b>[3-4]` a text.
fn element_of<'a>(chunk: &'a Spanned<Chunk>, is_name: bool) -> Spanned<RawChunk<'a>> {
    let text = chunk.v.get();
    let element = if is_name {
        RawChunk::Abbreviation(text)
    } else {
        RawChunk::Normal(text)
    };
    Spanned::new(element, chunk.span.start..chunk.span.end)
}

/// The chunks of a field with one element: its entry's key, its name and the element, separated by semicolons.
pub(crate) fn field(alloc: Global, text: &str) -> Result<String, ParseError> {
    let (key, rest) = text.split_once(';').unwrap_or((text, ""));
    let (name, element) = rest.split_once(';').unwrap_or((rest, ""));
    let chunks = chunks_of(alloc, element)?;
    let Some(chunk) = chunks.as_slice().first() else {
        return Ok(String::from_str(alloc, "no element")?);
    };
    let bibliography = of_element(
        alloc,
        key,
        name,
        element_of(chunk, element.starts_with('A')),
    )?;
    let chunks = bibliography.get(key).and_then(|entry| entry.get(name));
    Ok(chunks_text(alloc, chunks.unwrap_or(&[]))?)
}

/// Whether the bibliography of an entry with this key and no fields is settled.
pub(crate) fn settled(alloc: Global, key: &str) -> Result<String, ParseError> {
    let mut entries = Vec::new(alloc);
    entries.push(entry(alloc, key, 0..1))?;
    let bibliography = of_entries(alloc, entries)?;
    Ok(truth(alloc, bibliography.is_settled())?)
}

/// The entries of two raw ones with one key, of which the second stands at the bytes beside it: `N<key>[4-9]`.
pub(crate) fn twice(alloc: Global, text: &str) -> Result<String, ParseError> {
    let chunks = chunks_of(alloc, text)?;
    let Some(chunk) = chunks.as_slice().first() else {
        return Ok(String::from_str(alloc, "no key")?);
    };
    let mut entries = Vec::new(alloc);
    entries.push(entry(alloc, chunk.v.get(), 0..1))?;
    entries.push(entry(alloc, chunk.v.get(), chunk.span.start..chunk.span.end))?;
    let bibliography = of_entries(alloc, entries)?;
    Ok(entries_text(alloc, &bibliography)?)
}
