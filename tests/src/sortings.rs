//! Reads rows, a call and a text in each line, and prints each with the sorted text: `keys` sorts entries by their keys in lowercase, and
//! `places` by the numbers after it. With `again` before it, prints the keys of the entries of that text. With `twice`, sorts that text by
//! its keys again.

use edit_entries::document::RawDocument;
use edit_sort::sorting::sort_entries;
use std::alloc::{AllocError, Global};
use crate::support::rows::Calls;

pub struct Sortings;

// The place of a key among keys: how many of them are less.
fn place_of(keys: &[String], key: &str) -> usize {
    keys.iter().filter(|other| other.as_str() < key).count()
}

// The places of entries by their keys in lowercase.
fn places_by_key(alloc: Global, document: &RawDocument<'_>) -> Result<Vec<usize>, AllocError> {
    let mut keys = Vec::new(alloc);
    for entry in &document.raw().entries {
        keys.push(entry.v.key.v.to_ascii_lowercase(alloc)?)?;
    }
    let mut places = Vec::new(alloc);
    for key in &keys {
        places.push(place_of(&keys, key.as_str()))?;
    }
    Ok(places)
}

// The places of entries.
fn places_of(alloc: Global, call: &str, document: &RawDocument<'_>) -> Result<Vec<usize>, AllocError> {
    if call == "keys" {
        return places_by_key(alloc, document);
    }
    let mut places = Vec::new(alloc);
    for word in call.split(' ').skip(1) {
        places.push(word.parse::<usize>().unwrap_or(0))?;
    }
    Ok(places)
}

// A sorted text.
fn sorted(alloc: Global, call: &str, text: &str) -> Result<String, AllocError> {
    match RawDocument::parse(alloc, text) {
        Ok(document) => {
            let places = places_of(alloc, call, &document)?;
            sort_entries(alloc, &document, &places)
        }
        Err(_) => String::from_str(alloc, "no bibliography"),
    }
}

// The keys of a text's entries, and how many abbreviations it defines.
fn said(alloc: Global, text: &str) -> Result<String, AllocError> {
    let mut out = String::new(alloc);
    let Ok(document) = RawDocument::parse(alloc, text) else {
        return String::from_str(alloc, "no bibliography");
    };
    for entry in &document.raw().entries {
        out.push_str(format!(in alloc; "{} ", entry.v.key.v)?.as_str())?;
    }
    out.push_str(format!(in alloc; "{}", document.raw().abbreviations.len())?.as_str())?;
    Ok(out)
}

impl Calls for Sortings {
    fn answer(alloc: Global, call: &str, text: &str) -> Result<Option<String>, AllocError> {
        if let Some(call) = call.strip_prefix("again ") {
            let new = sorted(alloc, call, text)?;
            return Ok(Some(said(alloc, new.as_str())?));
        }
        if let Some(call) = call.strip_prefix("twice ") {
            let new = sorted(alloc, call, text)?;
            return Ok(Some(sorted(alloc, "keys", new.as_str())?));
        }
        if call == "keys" || call == "places" || call.starts_with("places ") {
            return Ok(Some(sorted(alloc, call, text)?));
        }
        Ok(None)
    }
}
