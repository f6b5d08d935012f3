//! What is written of a bibliography, read again.

use biblatex::{Bibliography, ParseError};
use std::alloc::Global;

/// What is read again of a bibliography that says it is settled, and nothing of another.
pub fn reread(alloc: Global, bibliography: &Bibliography) -> Option<Result<Bibliography, ParseError>> {
    if !bibliography.is_settled() {
        return None;
    }
    Some(written_and_read(alloc, bibliography))
}

// What is read of what is written of a bibliography.
fn written_and_read(alloc: Global, bibliography: &Bibliography) -> Result<Bibliography, ParseError> {
    let text = bibliography.to_biblatex_string(alloc)?;
    Bibliography::parse(alloc, text.as_str())
}
