//! Errors at the bytes 3 to 5, as texts.

use bib_tables::type_error::TypeErrorKind;
use bib_syntax::raw::{ParseError, ParseErrorKind};
use bib_text::text::Text;
use std::alloc::{AllocError, Global};

// The kind of error that a call names, of this name.
fn kind_of(alloc: Global, call: &str, name: &str) -> Result<Option<ParseErrorKind>, AllocError> {
    let name = Text::from_str(alloc, name)?;
    Ok(Some(match call {
        "UnknownAbbreviation" => ParseErrorKind::UnknownAbbreviation(name),
        "DuplicateKey" => ParseErrorKind::DuplicateKey(name),
        "ReferenceCycle" => ParseErrorKind::ReferenceCycle(name),
        "AbbreviationCycle" => ParseErrorKind::AbbreviationCycle(name),
        "ResolutionError" => ParseErrorKind::ResolutionError(TypeErrorKind::InvalidFormat),
        _ => return Ok(None),
    }))
}

/// The text of the error that a call names.
pub fn answer(alloc: Global, call: &str, name: &str) -> Result<Option<String>, AllocError> {
    let Some(kind) = kind_of(alloc, call, name)? else {
        return Ok(None);
    };
    let error = ParseError { span: 3..5, kind };
    Ok(Some(format!(in alloc; "{error}")?))
}
