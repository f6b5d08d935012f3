//! Changes of a bibliography: a file and steps after it, separated by semicolons, such as `remove a` or `find b`. Each step
//! has an answer.

use crate::bibliographies::entries::{entry_or_dash, text_or_dash};
use crate::bibliographies::parsed;
use crate::bibliographies::steps::asked;
use crate::bibliographies::written::read_again;
use biblatex::{Bibliography, Chunks, Entry, EntryType, ParseError, Text};
use std::alloc::{AllocError, Global};
use std::mem;
use crate::support::chunks::chunks_of;

// A text before and after a sign.
pub(crate) fn cut(text: &str, sign: char) -> (&str, &str) {
    text.split_once(sign).unwrap_or((text, ""))
}

// An entry of no fields.
fn misc(alloc: Global, key: &str) -> Result<Entry, AllocError> {
    let key = Text::from_str(alloc, key)?;
    Ok(Entry::new(alloc, key, EntryType::Misc))
}

// Sets a field, and hands out what it held. (It and the next three have no contracts, so that who calls them proves
// nothing again.)
fn set(entry: &mut Entry, name: &str, chunks: Chunks) -> Result<Option<Chunks>, AllocError> {
    match entry.set(name, chunks) {
        Ok(had) => Ok(had),
        Err(_) => Err(AllocError),
    }
}

// Takes a field out.
fn unset(entry: &mut Entry, name: &str) -> Option<Chunks> {
    entry.remove(name)
}

// Adds an entry, and hands out the one that it exchanged.
fn put(bibliography: &mut Bibliography, entry: Entry) -> Result<Option<Entry>, AllocError> {
    match bibliography.insert(entry) {
        Ok(had) => Ok(had),
        Err(_) => Err(AllocError),
    }
}

// Takes an entry out.
fn take(bibliography: &mut Bibliography, name: &str) -> Option<Entry> {
    bibliography.remove(name)
}

// Sets a field, `name=text`; what it held.
fn set_field(alloc: Global, entry: &mut Entry, field: &str) -> Result<String, AllocError> {
    let (name, text) = cut(field, '=');
    let chunks = chunks_of(alloc, text)?;
    let had = set(entry, name, chunks)?;
    text_or_dash(alloc, had.as_ref().map(|it| it.as_slice()))
}

// `KEY FIELD=TEXT`: adds an entry with this field, or with none; the one that it exchanged.
fn insert(alloc: Global, bibliography: &mut Bibliography, words: &str) -> Result<String, AllocError> {
    let (key, field) = cut(words, ' ');
    let mut entry = misc(alloc, key)?;
    if !field.is_empty() {
        set_field(alloc, &mut entry, field)?;
    }
    let had = put(bibliography, entry)?;
    entry_or_dash(alloc, had.as_ref())
}

// `NAME`: takes an entry out.
fn remove(alloc: Global, bibliography: &mut Bibliography, name: &str) -> Result<String, AllocError> {
    let had = take(bibliography, name);
    entry_or_dash(alloc, had.as_ref())
}

// `NAME OTHER`: lets another name point to an entry.
fn alias(alloc: Global, bibliography: &mut Bibliography, words: &str) -> Result<String, AllocError> {
    let (name, other) = cut(words, ' ');
    bibliography.alias(name, other)?;
    String::from_str(alloc, "done")
}

// `NAME FIELD=TEXT`: sets a field of an entry that is lent; what it held.
fn set_lent(alloc: Global, bibliography: &mut Bibliography, words: &str) -> Result<String, AllocError> {
    let (name, field) = cut(words, ' ');
    match bibliography.get_mut(name) {
        Some(entry) => set_field(alloc, entry, field),
        None => String::from_str(alloc, "no entry"),
    }
}

// `NAME FIELD`: takes a field out of an entry that is lent; what it held.
fn unset_lent(
    alloc: Global,
    bibliography: &mut Bibliography,
    words: &str,
) -> Result<String, AllocError> {
    let (name, field) = cut(words, ' ');
    match bibliography.get_mut(name) {
        Some(entry) => {
            let had = unset(entry, field);
            text_or_dash(alloc, had.as_ref().map(|it| it.as_slice()))
        }
        None => String::from_str(alloc, "no entry"),
    }
}

// `NAME KEY`: gives an entry that is lent another key.
fn rename(alloc: Global, bibliography: &mut Bibliography, words: &str) -> Result<String, AllocError> {
    let (name, key) = cut(words, ' ');
    let key = Text::from_str(alloc, key)?;
    match bibliography.get_mut(name) {
        Some(entry) => {
            entry.key = key;
            String::from_str(alloc, "done")
        }
        None => String::from_str(alloc, "no entry"),
    }
}

// `FIELD=TEXT`: sets a field of each entry; what each held, with a bar after it.
fn set_each(alloc: Global, bibliography: &mut Bibliography, field: &str) -> Result<String, AllocError> {
    let mut out = String::new(alloc);
    for entry in bibliography.iter_mut() {
        let had = set_field(alloc, entry, field)?;
        out.push_str(had.as_str())?;
        out.push('|')?;
    }
    Ok(out)
}

// Exchanges the bibliography for its clone.
fn exchange_clone(alloc: Global, bibliography: &mut Bibliography) -> Result<String, AllocError> {
    *bibliography = bibliography.clone()?;
    String::from_str(alloc, "done")
}

// Exchanges the bibliography for what is written and read again of it.
fn exchange_again(alloc: Global, bibliography: &mut Bibliography) -> Result<String, AllocError> {
    match read_again(alloc, bibliography) {
        Some(Ok(again)) => {
            *bibliography = again;
            String::from_str(alloc, "done")
        }
        Some(Err(error)) => error.to_string(alloc),
        None => String::from_str(alloc, "not settled"),
    }
}

// The keys of the entries that a bibliography gives away, one after another.
fn give_away(alloc: Global, bibliography: &mut Bibliography) -> Result<String, AllocError> {
    let given = mem::replace(bibliography, Bibliography::new(alloc));
    let mut keys = String::new(alloc);
    for entry in given.into_vec() {
        keys.push_str(entry.key.as_str())?;
    }
    Ok(keys)
}

// Takes a step: its verb, and words after it. A step that changes nothing asks.
fn step(alloc: Global, bibliography: &mut Bibliography, step: &str) -> Result<String, AllocError> {
    let (verb, words) = cut(step, ' ');
    match verb {
        "insert" => insert(alloc, bibliography, words),
        "remove" => remove(alloc, bibliography, words),
        "alias" => alias(alloc, bibliography, words),
        "set" => set_lent(alloc, bibliography, words),
        "unset" => unset_lent(alloc, bibliography, words),
        "rename" => rename(alloc, bibliography, words),
        "set_each" => set_each(alloc, bibliography, words),
        "clone" => exchange_clone(alloc, bibliography),
        "again" => exchange_again(alloc, bibliography),
        "give_away" => give_away(alloc, bibliography),
        _ => asked(alloc, bibliography, verb, words),
    }
}

/// The answer of each step, separated by semicolons.
pub(crate) fn changes(alloc: Global, text: &str) -> Result<String, ParseError> {
    let (file, steps) = cut(text, ';');
    let mut bibliography = parsed(alloc, file)?;
    let mut out = String::new(alloc);
    for words in steps.split(';') {
        if !out.is_empty() {
            out.push_str("; ")?;
        }
        let answer = step(alloc, &mut bibliography, words)?;
        out.push_str(answer.as_str())?;
    }
    Ok(out)
}
