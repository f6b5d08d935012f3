//! What the tests ask and say, in one place: each assertion is a call of these.

use biblatex::{Bibliography, ParseError};
use std::alloc::{AllocError, Global};
use std::process::Abort;

// The text that was found is the wanted one.
pub(crate) fn agrees(rt: &impl Abort, found: &str, want: &str) {
    assert!(rt; found == want, "{found:?}, and not {want:?}");
}

// The bibliography of a file. (It has no contract, so that who calls it proves nothing of the reading again.)
pub(crate) fn parsed(alloc: Global, file: &str) -> Result<Bibliography, ParseError> {
    Bibliography::parse(alloc, file)
}

// The key of the entry that a name points to, or a dash.
pub(crate) fn key_of<'a>(bibliography: &'a Bibliography, name: &str) -> &'a str {
    match bibliography.get(name) {
        Some(entry) => entry.key.as_str(),
        None => "-",
    }
}

// The keys of the entries, each after a bar.
pub(crate) fn keys(alloc: Global, bibliography: &Bibliography) -> Result<String, AllocError> {
    let mut out = String::new(alloc);
    for key in bibliography.keys() {
        out.push('|')?;
        out.push_str(key)?;
    }
    Ok(out)
}
