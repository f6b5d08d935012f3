//! Fields that are read in a way of their own.

use bib_tables::fields::is_verbatim_field;
use std::alloc::{AllocError, Global};

/// Whether the contents of a field with this name are verbatim.
pub fn is_verbatim(alloc: Global, name: &str) -> Result<String, AllocError> {
    let is_verbatim = is_verbatim_field(name);
    String::from_str(alloc, if is_verbatim { "true" } else { "false" })
}
