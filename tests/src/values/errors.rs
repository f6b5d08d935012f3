//! Errors as they are printed.

use bib_tables::type_error::{TypeError, TypeErrorKind};
use std::alloc::{AllocError, Global};
use crate::support::shown::agreed;

// The kind of a name, of those that have no number in them.
fn other_kind(name: &str) -> Option<TypeErrorKind> {
    Some(match name {
        "UndefinedRange" => TypeErrorKind::UndefinedRange,
        "InvalidFormat" => TypeErrorKind::InvalidFormat,
        "UnknownGender" => TypeErrorKind::UnknownGender,
        "UnknownPagination" => TypeErrorKind::UnknownPagination,
        "UnknownEditorType" => TypeErrorKind::UnknownEditorType,
        "UnknownLangId" => TypeErrorKind::UnknownLangId,
        "OutOfMemory" => TypeErrorKind::OutOfMemory,
        _ => return None,
    })
}

// The kind of a name.
fn kind_of(name: &str) -> Option<TypeErrorKind> {
    match name {
        "DayOutOfRange" => Some(TypeErrorKind::DayOutOfRange),
        "MonthOutOfRange" => Some(TypeErrorKind::MonthOutOfRange),
        "InvalidNumber" => Some(TypeErrorKind::InvalidNumber),
        "MissingNumber" => Some(TypeErrorKind::MissingNumber),
        "WrongNumberOfDigits" => Some(TypeErrorKind::WrongNumberOfDigits),
        "InvalidIntegerRange" => Some(TypeErrorKind::InvalidIntegerRange),
        "YearZeroCE" => Some(TypeErrorKind::YearZeroCE),
        _ => other_kind(name),
    }
}

// An error as it is printed, and its copy where that differs.
fn printed(alloc: Global, error: &TypeError) -> Result<String, AllocError> {
    let copy = error.clone()?;
    agreed(alloc, error.to_string(alloc)?, copy.to_string(alloc)?)
}

// The error of this kind at the first three bytes.
fn error(alloc: Global, kind: &str) -> Result<Option<String>, AllocError> {
    let Some(kind) = kind_of(kind) else {
        return Ok(None);
    };
    let error = TypeError { span: 0..3, kind };
    Ok(Some(printed(alloc, &error)?))
}

// The kind as it is printed.
fn kind(alloc: Global, name: &str) -> Result<Option<String>, AllocError> {
    match kind_of(name) {
        Some(kind) => Ok(Some(kind.to_string(alloc)?)),
        None => Ok(None),
    }
}

/// What a call answers.
pub fn answer(alloc: Global, call: &str, text: &str) -> Result<Option<String>, AllocError> {
    match call {
        "TypeErrorKind" => kind(alloc, text),
        "TypeError" => error(alloc, text),
        "TypeError::from(AllocError)" => Ok(Some(printed(alloc, &TypeError::from(AllocError))?)),
        _ => Ok(None),
    }
}
