//! Why a field was not read, as it is printed.

use bib_typed::retrieval::RetrievalError;
use bib_tables::type_error::{TypeError, TypeErrorKind};
use bib_text::text::Text;
use std::alloc::{AllocError, Global};
use crate::support::shown::agreed;

// A number that is none, at the first three bytes.
fn no_number() -> TypeError {
    TypeError {
        span: 0..3,
        kind: TypeErrorKind::InvalidNumber,
    }
}

// The error that a text stands for.
fn error_of(alloc: Global, text: &str) -> Result<Option<RetrievalError>, AllocError> {
    Ok(Some(match text {
        "Missing(Title)" => RetrievalError::Missing(Text::from_str(alloc, "Title")?),
        "OutOfMemory" => RetrievalError::OutOfMemory,
        "TypeError(InvalidNumber)" => RetrievalError::TypeError(no_number()),
        "from(TypeError(InvalidNumber))" => RetrievalError::from(no_number()),
        "from(TypeError::from(AllocError))" => RetrievalError::from(TypeError::from(AllocError)),
        "from(AllocError)" => RetrievalError::from(AllocError),
        _ => return Ok(None),
    }))
}

/// The error as it is printed, and its copy where that differs.
pub fn answer(alloc: Global, call: &str, text: &str) -> Result<Option<String>, AllocError> {
    if call != "RetrievalError" {
        return Ok(None);
    }
    let Some(error) = error_of(alloc, text)? else {
        return Ok(None);
    };
    let copy = error.clone()?;
    let answer = agreed(alloc, error.to_string(alloc)?, copy.to_string(alloc)?)?;
    Ok(Some(answer))
}
