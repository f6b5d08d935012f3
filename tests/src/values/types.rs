//! The types by their names.

use crate::values::typed;
use bib_chunks::chunk::Chunks;
use bib_dates::date::Date;
use bib_tables::types::lang::Language;
use bib_tables::types::{EditorType, Gender, Pagination};
use bib_people::person::Person;
use bib_typed::typed::PermissiveType;
use std::alloc::{AllocError, Global};
use std::ops::Range;

// Values or chunks.
fn of_permissive_types(
    alloc: Global,
    how: &str,
    kind: &str,
    text: &str,
) -> Result<Option<String>, AllocError> {
    match kind {
        "PermissiveType<i64>" => typed::answer::<PermissiveType<i64>>(alloc, how, text),
        "PermissiveType<Vec<Range<u32>>>" => {
            typed::answer::<PermissiveType<Vec<Range<u32>>>>(alloc, how, text)
        }
        "PermissiveType<Language>" => typed::answer::<PermissiveType<Language>>(alloc, how, text),
        "Vec<PermissiveType<Language>>" => {
            typed::answer::<Vec<PermissiveType<Language>>>(alloc, how, text)
        }
        _ => Ok(None),
    }
}

// Lists.
fn of_lists(
    alloc: Global,
    how: &str,
    kind: &str,
    text: &str,
) -> Result<Option<String>, AllocError> {
    match kind {
        "Vec<Range<u32>>" => typed::answer::<Vec<Range<u32>>>(alloc, how, text),
        "Vec<String>" => typed::answer::<Vec<String>>(alloc, how, text),
        "Vec<Chunks>" => typed::answer::<Vec<Chunks>>(alloc, how, text),
        "Vec<Person>" => typed::answer::<Vec<Person>>(alloc, how, text),
        _ => of_permissive_types(alloc, how, kind, text),
    }
}

/// What a call answers by the type of this name.
pub fn answer(
    alloc: Global,
    how: &str,
    kind: &str,
    text: &str,
) -> Result<Option<String>, AllocError> {
    match kind {
        "i64" => typed::answer::<i64>(alloc, how, text),
        "String" => typed::answer::<String>(alloc, how, text),
        "Range<u32>" => typed::answer::<Range<u32>>(alloc, how, text),
        "Pagination" => typed::answer::<Pagination>(alloc, how, text),
        "Gender" => typed::answer::<Gender>(alloc, how, text),
        "EditorType" => typed::answer::<EditorType>(alloc, how, text),
        "Language" => typed::answer::<Language>(alloc, how, text),
        "Date" => typed::answer::<Date>(alloc, how, text),
        _ => of_lists(alloc, how, kind, text),
    }
}
