//! Reads rows, an edit of a text in each line, and prints each with the text that comes of it, or with why it is refused. That the new
//! text is read, and says what it should, is seen by a row that reads it again.

use edit_entries::document::RawDocument;
use edit_entries::errors::EditError;
use edit_entries::field_edits::FieldEdit;
use edit_entries::field_value::FieldValue;
use bib_syntax::raw::RawChunk;
use std::alloc::{AllocError, Global};
use std::collections::BTreeSet;
use crate::support::rows::Calls;

pub struct Documents;

// Why an edit was refused.
fn refusal(error: EditError) -> &'static str {
    match error {
        EditError::UnknownKey => "refused: unknown key",
        EditError::KeyIsThere => "refused: the key is there",
        EditError::NotAKey => "refused: not a key",
        EditError::NotAName => "refused: not a name",
        EditError::NotInBraces => "refused: not in braces",
        EditError::NotBare => "refused: not bare",
        EditError::DefinitionIsThere => "refused: the definition is there",
        EditError::NoFieldLeft => "refused: no field left",
        EditError::OutOfMemory => "refused: out of memory",
    }
}

// The text with new keys of the entries in order, in which `-` stands for an entry that gets none.
fn with_keys(alloc: Global, words: &str, document: &RawDocument<'_>) -> Result<String, EditError> {
    let mut keys = Vec::new(alloc);
    for word in words.split(',') {
        keys.push(if word == "-" { None } else { Some(word) })?;
    }
    document.rename_keys(alloc, &keys)
}

// The text that comes of an edit of a field of the entries with some keys, if the call is one.
fn with_fields(alloc: Global, call: &str, document: &RawDocument<'_>) -> Option<Result<String, EditError>> {
    let (command, rest) = call.split_once(' ')?;
    let (keys, rest) = rest.split_once(' ')?;
    let (name, value) = rest.split_once(' ')?;
    let edit = match command {
        "set-in" => FieldEdit::Set { name, value: FieldValue::Text(value) },
        "add-in" => FieldEdit::Add { name, value: FieldValue::Text(value) },
        "set-bare-in" => FieldEdit::Set { name, value: FieldValue::Bare(value) },
        "add-bare-in" => FieldEdit::Add { name, value: FieldValue::Bare(value) },
        "rename-in" => FieldEdit::Rename { old: name, new: value },
        _ => return None,
    };
    Some(key_set(alloc, keys).and_then(|set| document.edit_fields(alloc, &set, &edit)))
}

// The set of the keys between commas.
fn key_set<'k>(alloc: Global, keys: &'k str) -> Result<BTreeSet<&'k str>, EditError> {
    let mut set = BTreeSet::new(alloc);
    for key in keys.split(',') {
        set.insert(key)?;
    }
    Ok(set)
}

// The text without a field of the entries with some keys.
fn without_fields(alloc: Global, words: &str, document: &RawDocument<'_>) -> Option<Result<String, EditError>> {
    let (keys, name) = words.split_once(' ')?;
    Some(key_set(alloc, keys).and_then(|set| document.unset_fields(alloc, &set, name)))
}

// The text without the entries with some keys.
fn without_entries(alloc: Global, keys: &str, document: &RawDocument<'_>) -> Result<String, EditError> {
    let set = key_set(alloc, keys)?;
    Ok(document.remove_entries(alloc, &set)?)
}

// The text without the first entry with each of some keys.
fn without_firsts(alloc: Global, words: &str, document: &RawDocument<'_>) -> Result<String, EditError> {
    let mut keys = Vec::new(alloc);
    'keys: for key in words.split(',') {
        keys.push(key)?;
    }
    document.remove_first_entries(alloc, &keys)
}

// The text that comes of an edit, if the call is one.
fn edited(alloc: Global, call: &str, document: &RawDocument<'_>) -> Option<Result<String, EditError>> {
    if let Some(words) = call.strip_prefix("set ") {
        let (key, rest) = words.split_once(' ')?;
        let (name, value) = rest.split_once(' ')?;
        return Some(document.set_field(alloc, key, name, FieldValue::Text(value)));
    }
    if let Some(words) = call.strip_prefix("set-bare ") {
        let (key, rest) = words.split_once(' ')?;
        let (name, value) = rest.split_once(' ')?;
        return Some(document.set_field(alloc, key, name, FieldValue::Bare(value)));
    }
    if let Some(words) = call.strip_prefix("unset ") {
        let (key, name) = words.split_once(' ')?;
        return Some(document.unset_field(alloc, key, name));
    }
    if let Some(words) = call.strip_prefix("unset-in ") {
        return without_fields(alloc, words, document);
    }
    if let Some(keys) = call.strip_prefix("remove-in ") {
        return Some(without_entries(alloc, keys, document));
    }
    if let Some(keys) = call.strip_prefix("remove-each ") {
        return Some(without_firsts(alloc, keys, document));
    }
    if let Some(words) = call.strip_prefix("rename ") {
        let (old, new) = words.split_once(' ')?;
        return Some(document.rename_key(alloc, old, new));
    }
    if let Some(answer) = with_fields(alloc, call, document) {
        return Some(answer);
    }
    if let Some(words) = call.strip_prefix("keys ") {
        return Some(with_keys(alloc, words, document));
    }
    if let Some(more) = call.strip_prefix("add ") {
        let Ok(more) = RawDocument::parse(alloc, more) else {
            return None;
        };
        return Some(document.add_entries(alloc, &more));
    }
    let key = call.strip_prefix("remove ")?;
    Some(document.remove_entry(alloc, key))
}

// The keys, names and elements that a text says, with where each begins.
fn said(alloc: Global, text: &str) -> Result<String, AllocError> {
    let mut out = String::new(alloc);
    let Ok(document) = RawDocument::parse(alloc, text) else {
        return String::from_str(alloc, "no bibliography");
    };
    for entry in &document.raw().entries {
        out.push_str(format!(in alloc; "{}@{}", entry.v.key.v, entry.v.key.span.start)?.as_str())?;
        for field in &entry.v.fields {
            out.push_str(format!(in alloc; " {}@{}=", field.key.v, field.key.span.start)?.as_str())?;
            for piece in &field.value.v {
                let (RawChunk::Normal(text) | RawChunk::Abbreviation(text)) = piece.v;
                out.push_str(format!(in alloc; "{}@{};", text, piece.span.start)?.as_str())?;
            }
        }
        out.push_str(" | ")?;
    }
    Ok(out)
}

impl Calls for Documents {
    fn answer(alloc: Global, call: &str, text: &str) -> Result<Option<String>, AllocError> {
        let Ok(document) = RawDocument::parse(alloc, text) else {
            return Ok(Some(String::from_str(alloc, "no bibliography")?));
        };
        if call == "quotes" {
            let said = if document.has_unbalanced_quotes() { "unbalanced" } else { "balanced" };
            return Ok(Some(String::from_str(alloc, said)?));
        }
        let (is_read_again, call) = match call.strip_prefix("again ") {
            Some(call) => (true, call),
            None => (false, call),
        };
        Ok(match edited(alloc, call, &document) {
            Some(Ok(new)) if is_read_again => Some(said(alloc, new.as_str())?),
            Some(Ok(new)) => Some(new),
            Some(Err(error)) => Some(String::from_str(alloc, refusal(error))?),
            None => None,
        })
    }
}
