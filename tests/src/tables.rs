//! Reads rows, a call on the tables and a name in each line, and prints each with what the call answers.

mod entry_types;
mod fields;
mod genders;
mod lists;
mod names;
mod possible;
mod requirements;

use std::alloc::{AllocError, Global};
use crate::support::rows::Calls;

pub struct Tables;

impl Calls for Tables {
    fn answer(alloc: Global, call: &str, text: &str) -> Result<Option<String>, AllocError> {
        if let Some(answer) = of_enumerations(alloc, call, text)? {
            return Ok(Some(answer));
        }
        of_entry_types(alloc, call, text)
    }
}

// What a call on a small enumeration answers.
fn of_enumerations(alloc: Global, call: &str, text: &str) -> Result<Option<String>, AllocError> {
    Ok(Some(match call {
        "Language" => names::language(alloc, text)?,
        "Pagination" => names::pagination(alloc, text)?,
        "EditorType" => names::editor_type(alloc, text)?,
        "NameError" => names::name_error(alloc, text)?,
        "Gender" => genders::gender(alloc, text)?,
        "coalesce" => genders::coalesce(alloc, text)?,
        _ => return Ok(None),
    }))
}

// What a call on the types of entries answers.
fn of_entry_types(alloc: Global, call: &str, text: &str) -> Result<Option<String>, AllocError> {
    Ok(Some(match call {
        "EntryType::new" => entry_types::entry_type(alloc, text)?,
        "EntryType::from_str" => entry_types::named(alloc, text)?,
        "==" => entry_types::are_same(alloc, text)?,
        "is_verbatim_field" => fields::is_verbatim(alloc, text)?,
        "required" => requirements::required(alloc, text)?,
        "optional" => requirements::optional(alloc, text)?,
        "forbidden" => requirements::forbidden(alloc, text)?,
        "modes" => requirements::modes(alloc, text)?,
        "Requirements::new" => requirements::none(alloc)?,
        "AuthorMode" => possible::authors(alloc, text)?,
        "PagesChapterMode" => possible::pages(alloc, text)?,
        _ => return Ok(None),
    }))
}
