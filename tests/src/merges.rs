//! Reads rows, a call and a text in each line, and prints each with an answer. For `merge` and `order` the text is three versions of a file
//! with `¶` between them: the base, ours and theirs. `merge` prints the merged text, `order` whose order it has, and `lost` the lost
//! names. `names` prints the names of the units of a text.

use crate::support::rows::Calls;
use edit_entry_merge::conflict_text::Markers;
use edit_merge::merging::{Merged, merge};
use edit_merge::picking::{Choice, Versions};
use edit_versions::version::Version;
use std::alloc::{AllocError, Global};

pub struct Merges;

const MARKERS: Markers<'static> = Markers {
    ours: "<<<<<<< ours",
    middle: "=======",
    theirs: ">>>>>>> theirs",
};

// The merge of three versions, or `None` if one of them can't be parsed.
fn merged(
    alloc: Global,
    base: &str,
    ours: &str,
    theirs: &str,
) -> Result<Option<Merged>, AllocError> {
    let Ok(base) = Version::parse(alloc, base) else {
        return Ok(None);
    };
    let Ok(ours) = Version::parse(alloc, ours) else {
        return Ok(None);
    };
    let Ok(theirs) = Version::parse(alloc, theirs) else {
        return Ok(None);
    };
    let versions = Versions {
        base: &base,
        ours: &ours,
        theirs: &theirs,
    };
    Ok(Some(merge(alloc, versions, versions, MARKERS)?))
}

// The word for a choice.
fn word(choice: Choice) -> &'static str {
    match choice {
        Choice::Ours => "ours",
        Choice::Theirs => "theirs",
        Choice::Conflict => "conflict",
    }
}

// The names of the units of a text, with a line feed between them.
fn names(alloc: Global, text: &str) -> Result<String, AllocError> {
    let Ok(version) = Version::parse(alloc, text) else {
        return String::from_str(alloc, "no bibliography");
    };
    let mut names = String::new(alloc);
    for name in version.names() {
        if !names.is_empty() {
            names.push('\n')?;
        }
        names.push_str(name.as_str())?;
    }
    Ok(names)
}

// The lost names of a merge, with a line feed between them.
fn lost(alloc: Global, found: &Merged) -> Result<String, AllocError> {
    let mut names = String::new(alloc);
    for name in &found.lost {
        if let Some(name) = name {
            if !names.is_empty() {
                names.push('\n')?;
            }
            names.push_str(name)?;
        }
    }
    Ok(names)
}

// What a call prints for three versions.
fn shown(alloc: Global, call: &str, found: Option<Merged>) -> Result<String, AllocError> {
    match found {
        Some(found) => {
            if call == "merge" {
                Ok(found.text)
            } else if call == "lost" {
                lost(alloc, &found)
            } else {
                String::from_str(alloc, word(found.order))
            }
        }
        None => String::from_str(alloc, "no bibliography"),
    }
}

impl Calls for Merges {
    fn answer(alloc: Global, call: &str, text: &str) -> Result<Option<String>, AllocError> {
        if call == "names" {
            return Ok(Some(names(alloc, text)?));
        }
        if call != "merge" && call != "order" && call != "lost" {
            return Ok(None);
        }
        let Some((base, sides)) = text.split_once('¶') else {
            return Ok(None);
        };
        match sides.split_once('¶') {
            Some((ours, theirs)) => {
                let found = merged(alloc, base, ours, theirs)?;
                Ok(Some(shown(alloc, call, found)?))
            }
            None => Ok(None),
        }
    }
}
