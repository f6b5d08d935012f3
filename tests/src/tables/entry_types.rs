//! Types of entries by their names.

use bib_tables::mechanics::EntryType;
use std::alloc::{AllocError, Global};
use std::str::FromStr;

// What a type is called, in BibLaTeX and in BibTeX.
fn names(alloc: Global, kind: &EntryType) -> Result<String, AllocError> {
    let biblatex = kind.to_biblatex();
    let bibtex = kind.to_bibtex();
    Ok(format!(in alloc; "{kind} / {biblatex} / {bibtex}")?)
}

/// The type of a name, as it is written, and those of BibLaTeX and BibTeX that stand for it; then whether it has
/// several volumes and whether it holds other works, and the text that an unknown type keeps.
pub fn entry_type(alloc: Global, name: &str) -> Result<String, AllocError> {
    let kind = EntryType::new(alloc, name)?;
    let mut out = names(alloc, &kind)?;
    if kind.is_multi_volume() {
        out.push_str(", several volumes")?;
    }
    if kind.is_collection() {
        out.push_str(", holds works")?;
    }
    if let EntryType::Unknown(kept) = &kind {
        out.push_str(", kept as ")?;
        out.push_str(kept.as_str())?;
    }
    Ok(out)
}

/// The type whose name is written exactly so: the variant and its name.
pub fn named(alloc: Global, name: &str) -> Result<String, AllocError> {
    match EntryType::from_str(name) {
        Ok(kind) => Ok(format!(in alloc; "{kind:?} / {kind}")?),
        Err(error) => Ok(format!(in alloc; "{error}")?),
    }
}

/// Whether two names, with a blank between them, are of the same type.
pub fn are_same(alloc: Global, names: &str) -> Result<String, AllocError> {
    let (one, other) = names.split_once(' ').unwrap_or((names, ""));
    let is_same = EntryType::new(alloc, one)? == EntryType::new(alloc, other)?;
    String::from_str(alloc, if is_same { "true" } else { "false" })
}
