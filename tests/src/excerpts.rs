//! Reads rows, a call with its words and a text in each line, and prints each with what the call answers: excerpts of a file, what a
//! document cites, which files it names and inputs, which keys a file knows, and which of its entries aren't cited.

use bib_queries::citations::{Citations, in_aux, in_bcf};
use bib_queries::excerpts::answer;
use bib_queries::known::{find_uncited, mark_known};
use bib_queries::lines::aux_input;
use bib_queries::request::{CitedKeys, Request, Search};
use bib_queries::sources::{sources_in_aux, sources_in_bcf};
use std::alloc::{AllocError, Global};
use crate::support::rows::Calls;

pub struct Excerpts;

// Words with a space between them.
fn words<'a>(alloc: Global, text: &'a str) -> Result<Vec<&'a str>, AllocError> {
    let mut words = Vec::new(alloc);
    for word in text.split(' ') {
        if !word.is_empty() {
            words.push(word)?;
        }
    }
    Ok(words)
}

// The request that a call is, if it is one for excerpts.
fn request<'a>(alloc: Global, call: &'a str) -> Result<Option<Request<'a>>, AllocError> {
    if call == "excerpt keys" {
        return Ok(Some(Request::Keys));
    }
    if let Some(keys) = call.strip_prefix("excerpt get ") {
        return Ok(Some(Request::Get(words(alloc, keys)?)));
    }
    if let Some(keys) = call.strip_prefix("excerpt cited ") {
        let keys = words(alloc, keys)?;
        return Ok(Some(Request::Cited(CitedKeys { keys, all: false })));
    }
    if call == "excerpt all" {
        let keys = Vec::new(alloc);
        return Ok(Some(Request::Cited(CitedKeys { keys, all: true })));
    }
    let Some(search) = call.strip_prefix("excerpt grep ") else {
        return Ok(None);
    };
    let (field, part) = search.split_once(' ').unwrap_or((search, ""));
    Ok(Some(Request::Grep(Search { field, part })))
}

// The answer to a request, with a mark if its text has no entry.
fn answered(alloc: Global, request: &Request<'_>, text: &str) -> Result<String, AllocError> {
    let answer = answer(alloc, request, text)?;
    if answer.has_entry || answer.text.is_empty() {
        return Ok(answer.text);
    }
    format!(in alloc; "no entry: {}", answer.text.as_str())
}

// Names, each with a space after it.
fn spaced(alloc: Global, names: &[String]) -> Result<String, AllocError> {
    let mut out = String::new(alloc);
    for name in names {
        let line = format!(in alloc; "{} ", name.as_str())?;
        out.push_str(line.as_str())?;
    }
    Ok(out)
}

// What is cited, each key with its place.
fn citations(alloc: Global, found: &Citations) -> Result<String, AllocError> {
    let mut out = String::new(alloc);
    if found.all {
        out.push_str("all ")?;
    }
    for citation in &found.keys {
        let line = format!(in alloc; "{}@{} ", citation.key.as_str(), citation.at)?;
        out.push_str(line.as_str())?;
    }
    Ok(out)
}

// The keys that a file knows.
fn known_keys(alloc: Global, keys: &str, text: &str) -> Result<String, AllocError> {
    let keys = words(alloc, keys)?;
    let marks = mark_known(alloc, text, &keys)?;
    let mut out = String::new(alloc);
    for (key, mark) in keys.iter().zip(&marks) {
        if *mark {
            out.push_str(key)?;
            out.push(' ')?;
        }
    }
    Ok(out)
}

// The keys of entries that aren't cited, with their places.
fn uncited_keys(alloc: Global, keys: &str, text: &str) -> Result<String, AllocError> {
    let keys = words(alloc, keys)?;
    let mut out = String::new(alloc);
    for key in &find_uncited(alloc, text, &keys)? {
        let line = format!(in alloc; "{}@{}-{} ", key.v, key.span.start, key.span.end)?;
        out.push_str(line.as_str())?;
    }
    Ok(out)
}

impl Calls for Excerpts {
    fn answer(alloc: Global, call: &str, text: &str) -> Result<Option<String>, AllocError> {
        if let Some(request) = request(alloc, call)? {
            return Ok(Some(answered(alloc, &request, text)?));
        }
        if let Some(keys) = call.strip_prefix("known ") {
            return Ok(Some(known_keys(alloc, keys, text)?));
        }
        if let Some(keys) = call.strip_prefix("uncited ") {
            return Ok(Some(uncited_keys(alloc, keys, text)?));
        }
        Ok(Some(match call {
            "citations aux" => citations(alloc, &in_aux(alloc, text)?)?,
            "citations bcf" => citations(alloc, &in_bcf(alloc, text)?)?,
            "sources aux" => spaced(alloc, &sources_in_aux(alloc, text)?)?,
            "sources bcf" => spaced(alloc, &sources_in_bcf(alloc, text)?)?,
            "input" => String::from_str(alloc, aux_input(text).unwrap_or("none"))?,
            _ => return Ok(None),
        }))
    }
}
