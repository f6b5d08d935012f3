//! Names with blanks between them.

use std::alloc::{AllocError, Global};

// Adds a name after a blank, the first one without.
fn push_name(out: &mut String, name: &str) -> Result<(), AllocError> {
    if !out.is_empty() {
        out.push(' ')?;
    }
    Ok(out.push_str(name)?)
}

/// Names with blanks between them.
pub fn joined(alloc: Global, names: &[&'static str]) -> Result<String, AllocError> {
    let mut out = String::new(alloc);
    for name in names {
        push_name(&mut out, name)?;
    }
    Ok(out)
}
