//! The types by their names.

use crate::entries::chunk_fields;
use crate::entries::typed_fields::{by_name, by_type};
use bib_chunks::chunk::Chunks;
use bib_dates::date::Date;
use bib_tables::types::lang::Language;
use bib_tables::types::{Gender, Pagination};
use bib_people::person::Person;
use bib_typed::typed::PermissiveType;
use std::alloc::{AllocError, Global};
use std::ops::Range;

/// What `set_as` or `get_as` answers at the type of this name.
pub fn as_type(
    alloc: Global,
    how: &str,
    kind: &str,
    name: &str,
    argument: &str,
) -> Result<Option<String>, AllocError> {
    match kind {
        "i64" => by_type::<i64>(alloc, how, name, argument),
        "String" => by_type::<String>(alloc, how, name, argument),
        "Range<u32>" => by_type::<Range<u32>>(alloc, how, name, argument),
        "Vec<Range<u32>>" => by_type::<Vec<Range<u32>>>(alloc, how, name, argument),
        "Pagination" => by_type::<Pagination>(alloc, how, name, argument),
        "Language" => by_type::<Language>(alloc, how, name, argument),
        "PermissiveType<i64>" => by_type::<PermissiveType<i64>>(alloc, how, name, argument),
        "PermissiveType<Vec<Range<u32>>>" => {
            by_type::<PermissiveType<Vec<Range<u32>>>>(alloc, how, name, argument)
        }
        _ => Ok(None),
    }
}

// What the setters and getters of values or chunks answer.
fn of_permissive_types(
    alloc: Global,
    how: &str,
    kind: &str,
    name: &str,
    argument: &str,
) -> Result<Option<String>, AllocError> {
    match kind {
        "PermissiveType<i64>" => by_name::<PermissiveType<i64>>(alloc, how, name, argument),
        "PermissiveType<Language>" => {
            by_name::<PermissiveType<Language>>(alloc, how, name, argument)
        }
        "PermissiveType<Vec<Range<u32>>>" => {
            by_name::<PermissiveType<Vec<Range<u32>>>>(alloc, how, name, argument)
        }
        "PermissiveType<Date>" => by_name::<PermissiveType<Date>>(alloc, how, name, argument),
        "Vec<PermissiveType<Language>>" => {
            by_name::<Vec<PermissiveType<Language>>>(alloc, how, name, argument)
        }
        _ => Ok(None),
    }
}

// What the setters and getters of chunks answer.
fn of_chunks(
    alloc: Global,
    how: &str,
    name: &str,
    argument: &str,
) -> Result<Option<String>, AllocError> {
    match how {
        "get" => chunk_fields::get(alloc, name, argument),
        "set" => chunk_fields::set(alloc, name, argument),
        _ => Ok(None),
    }
}

/// What the setters and getters of a type answer.
pub fn of_type(
    alloc: Global,
    how: &str,
    kind: &str,
    name: &str,
    argument: &str,
) -> Result<Option<String>, AllocError> {
    match kind {
        "Chunks" => of_chunks(alloc, how, name, argument),
        "i64" => by_name::<i64>(alloc, how, name, argument),
        "String" => by_name::<String>(alloc, how, name, argument),
        "Pagination" => by_name::<Pagination>(alloc, how, name, argument),
        "Gender" => by_name::<Gender>(alloc, how, name, argument),
        "Vec<String>" => by_name::<Vec<String>>(alloc, how, name, argument),
        "Vec<Chunks>" => by_name::<Vec<Chunks>>(alloc, how, name, argument),
        "Vec<Person>" => by_name::<Vec<Person>>(alloc, how, name, argument),
        _ => of_permissive_types(alloc, how, kind, name, argument),
    }
}
