//! Which fields an entry of a type takes over from an entry that it refers to.

use crate::bibliographies::changes::cut;
use crate::bibliographies::parsed;
use biblatex::{Bibliography, ParseError};
use std::alloc::{AllocError, Global};

// An entry of a type, and another one with fields of these names, each of which says its name, to which it refers.
fn file(alloc: Global, kind: &str, names: &str) -> Result<String, AllocError> {
    let mut text = format!(in alloc; "@{kind}{{a, xdata={{p}}}} @misc{{p")?;
    for name in names.split(' ') {
        text.push_str(", ")?;
        text.push_str(name)?;
        text.push_str("={")?;
        text.push_str(name)?;
        text.push('}')?;
    }
    text.push('}')?;
    Ok(text)
}

// Those of the names that the entry has.
fn held(alloc: Global, bibliography: &Bibliography, names: &str) -> Result<String, AllocError> {
    let mut out = String::new(alloc);
    let Some(entry) = bibliography.get("a") else {
        return Ok(out);
    };
    for name in names.split(' ') {
        if entry.get(name).is_some() {
            if !out.is_empty() {
                out.push(' ')?;
            }
            out.push_str(name)?;
        }
    }
    Ok(out)
}

/// Those of the names after a type's name that an entry of the type takes over.
pub(crate) fn inherited(alloc: Global, text: &str) -> Result<String, ParseError> {
    let (kind, names) = cut(text, ' ');
    let file = file(alloc, kind, names)?;
    let bibliography = parsed(alloc, file.as_str())?;
    Ok(held(alloc, &bibliography, names)?)
}
