//! Fields that are read as a type: set, and got.

use crate::entries::fielded::Fielded;
use crate::entries::fields::{entry_of, fields_text};
use bib_entry::entry::Entry;
use bib_typed::typed::Type;
use std::alloc::{AllocError, Global};
use crate::support::chunks::chunks_of;
use crate::support::shown::{Shown, answer_of};

// What the getter of this name reads.
fn found<T: Fielded>(
    alloc: Global,
    entry: &Entry,
    name: &str,
) -> Result<Option<String>, AllocError> {
    match T::get(entry, alloc, name) {
        Some(read) => Ok(Some(answer_of(alloc, read)?)),
        None => Ok(None),
    }
}

// The fields of an entry after a setter was called, and what the getter reads.
fn set_to<T: Fielded>(
    alloc: Global,
    entry: &mut Entry,
    name: &str,
    value: &T,
) -> Result<Option<String>, AllocError> {
    let Some(done) = T::set(entry, name, value) else {
        return Ok(None);
    };
    done?;
    let Some(found) = found::<T>(alloc, entry, name)? else {
        return Ok(None);
    };
    let fields = fields_text(alloc, entry)?;
    Ok(Some(format!(in alloc; "{fields} / {found}")?))
}

// The same with the value that the first of the texts is read as, in an entry that has the others.
fn set<T: Fielded>(
    alloc: Global,
    name: &str,
    argument: &str,
) -> Result<Option<String>, AllocError> {
    let (text, fields) = argument.split_once(';').unwrap_or((argument, ""));
    let mut entry = entry_of(alloc, fields)?;
    let chunks = chunks_of(alloc, text)?;
    match T::from_chunks(alloc, chunks.as_slice()) {
        Ok(value) => set_to(alloc, &mut entry, name, &value),
        Err(error) => Ok(Some(error.to_string(alloc)?)),
    }
}

/// The answer of a setter and a getter by their name.
pub fn by_name<T: Fielded>(
    alloc: Global,
    how: &str,
    name: &str,
    argument: &str,
) -> Result<Option<String>, AllocError> {
    match how {
        "get" => {
            let entry = entry_of(alloc, argument)?;
            found::<T>(alloc, &entry, name)
        }
        "set" => set::<T>(alloc, name, argument),
        _ => Ok(None),
    }
}

// The fields of an entry after the field of this name was set to the value that the first of the texts is read as.
fn set_as<T: Type + Drop>(alloc: Global, name: &str, argument: &str) -> Result<String, AllocError> {
    let (text, fields) = argument.split_once(';').unwrap_or((argument, ""));
    let mut entry = entry_of(alloc, fields)?;
    let chunks = chunks_of(alloc, text)?;
    match T::from_chunks(alloc, chunks.as_slice()) {
        Ok(value) => entry.set_as(name, &value)?,
        Err(error) => return error.to_string(alloc),
    }
    fields_text(alloc, &entry)
}

// What the field of this very name is read as.
fn get_as<T: Type + Shown + Drop>(
    alloc: Global,
    name: &str,
    fields: &str,
) -> Result<String, AllocError> {
    let entry = entry_of(alloc, fields)?;
    answer_of(alloc, entry.get_as::<T>(alloc, name))
}

/// The answer of `set_as` or `get_as` at a type.
pub fn by_type<T: Type + Shown + Drop>(
    alloc: Global,
    how: &str,
    name: &str,
    argument: &str,
) -> Result<Option<String>, AllocError> {
    Ok(Some(match how {
        "set_as" => set_as::<T>(alloc, name, argument)?,
        "get_as" => get_as::<T>(alloc, name, argument)?,
        _ => return Ok(None),
    }))
}
