//! Steps that change nothing: what a bibliography has, where names point, and what is written.

use crate::bibliographies::changes::cut;
use crate::bibliographies::entries::{entry_or_dash, entry_text, text_or_dash};
use crate::bibliographies::truth;
use crate::bibliographies::written::{biblatex, entry_biblatex, entry_bibtex, settled};
use biblatex::{Bibliography, Entry};
use std::alloc::{AllocError, Global};

// The entry that a name points to. (It has no contract, so that who calls it proves nothing again.)
fn found<'a>(bibliography: &'a Bibliography, name: &str) -> Option<&'a Entry> {
    bibliography.get(name)
}

// The key of each entry, after a bar.
fn keys(alloc: Global, bibliography: &Bibliography) -> Result<String, AllocError> {
    let mut out = String::new(alloc);
    for key in bibliography.keys() {
        out.push('|')?;
        out.push_str(key)?;
    }
    Ok(out)
}

// The keys of the entries as they are handed out, one after another.
fn in_order(alloc: Global, bibliography: &Bibliography) -> Result<String, AllocError> {
    let mut out = String::new(alloc);
    for entry in bibliography.iter() {
        out.push_str(entry.key.as_str())?;
    }
    Ok(out)
}

// The key of the entry that a name points to.
fn key(alloc: Global, bibliography: &Bibliography, name: &str) -> Result<String, AllocError> {
    match found(bibliography, name) {
        Some(entry) => String::from_str(alloc, entry.key.as_str()),
        None => String::from_str(alloc, "-"),
    }
}

// `NAME FIELD`: the text of a field.
fn field(alloc: Global, bibliography: &Bibliography, words: &str) -> Result<String, AllocError> {
    let (name, field) = cut(words, ' ');
    match found(bibliography, name) {
        Some(entry) => text_or_dash(alloc, entry.get(field)),
        None => String::from_str(alloc, "-"),
    }
}

// The type of an entry, and the entry.
fn typed_text(alloc: Global, entry: &Entry) -> Result<String, AllocError> {
    let text = entry_text(alloc, entry)?;
    format!(in alloc; "{} {}", entry.entry_type, text.as_str())
}

// A copy of the entry that a name points to.
fn copied(alloc: Global, bibliography: &Bibliography, name: &str) -> Result<String, AllocError> {
    let Some(entry) = found(bibliography, name) else {
        return String::from_str(alloc, "-");
    };
    let copy = entry.clone()?;
    typed_text(alloc, &copy)
}

// What is written of the entry that a name points to, with BibTeX's names or with BibLaTeX's.
fn written(
    alloc: Global,
    bibliography: &Bibliography,
    name: &str,
    for_bibtex: bool,
) -> Result<String, AllocError> {
    match found(bibliography, name) {
        Some(entry) if for_bibtex => entry_bibtex(alloc, entry),
        Some(entry) => entry_biblatex(alloc, entry),
        None => String::from_str(alloc, "-"),
    }
}

/// The answer to a step that changes nothing.
pub(crate) fn asked(
    alloc: Global,
    bibliography: &Bibliography,
    verb: &str,
    words: &str,
) -> Result<String, AllocError> {
    match verb {
        "len" => bibliography.len().to_string(alloc),
        "is_empty" => truth(alloc, bibliography.is_empty()),
        "keys" => keys(alloc, bibliography),
        "order" => in_order(alloc, bibliography),
        "find" => key(alloc, bibliography, words),
        "entry" => entry_or_dash(alloc, found(bibliography, words)),
        "get" => field(alloc, bibliography, words),
        "copy" => copied(alloc, bibliography, words),
        "settled" => settled(alloc, bibliography),
        "biblatex" => biblatex(alloc, bibliography),
        "entry_biblatex" => written(alloc, bibliography, words, false),
        "entry_bibtex" => written(alloc, bibliography, words, true),
        _ => String::from_str(alloc, "there is no such step"),
    }
}
