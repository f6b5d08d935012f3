//! Languages, and the small enumerations that are read from names: the variant, and what it is written as.

use bib_tables::types::lang::Language;
use bib_tables::types::{EditorType, NameError, Pagination};
use std::alloc::{AllocError, Global};
use std::str::FromStr;

/// The language of a name: the variant, its name and its tag.
pub fn language(alloc: Global, name: &str) -> Result<String, AllocError> {
    match Language::from_str(name) {
        Ok(it) => Ok(format!(in alloc; "{it:?} / {it} / {}", it.tag())?),
        Err(error) => Ok(format!(in alloc; "{error}")?),
    }
}

/// The scheme of a name: the variant, and its name by `as_ref` and by `Display`.
pub fn pagination(alloc: Global, name: &str) -> Result<String, AllocError> {
    match Pagination::from_str(name) {
        Ok(it) => Ok(format!(in alloc; "{it:?} / {} / {it}", it.as_ref())?),
        Err(error) => Ok(format!(in alloc; "{error}")?),
    }
}

// What an editor did, as a text.
fn editor_type_text(alloc: Global, role: &EditorType) -> Result<String, AllocError> {
    if let EditorType::Unknown(_) = role {
        return Ok(format!(in alloc; "Unknown / {} / {role}", role.as_ref())?);
    }
    Ok(format!(in alloc; "{role:?} / {} / {role}", role.as_ref())?)
}

/// What an editor of a name did: the variant, and its name by `as_ref` and by `Display`.
pub fn editor_type(alloc: Global, name: &str) -> Result<String, AllocError> {
    match EditorType::from_str(alloc, name) {
        Ok(role) => editor_type_text(alloc, &role),
        Err(error) => Ok(format!(in alloc; "{error}")?),
    }
}

/// The text of an error.
pub fn name_error(alloc: Global, variant: &str) -> Result<String, AllocError> {
    let error = match variant {
        "Unknown" => NameError::Unknown,
        "OutOfMemory" => NameError::OutOfMemory,
        _ => return String::from_str(alloc, "there is no such variant"),
    };
    Ok(format!(in alloc; "{error}")?)
}
