//! Reads rows, a call and three versions of a file with `¶` between them: the base, ours and theirs. `texts` prints the new text of each
//! version with the keys of renamed entries, or `-` for one that stays. `merge` prints the merge of the versions with these texts.

use crate::support::rows::Calls;
use edit_entry_merge::conflict_text::Markers;
use edit_merge::merging::merge;
use edit_merge::picking::Versions;
use edit_merge::renames::{RenamedTexts, renamed_texts};
use edit_versions::version::Version;
use std::alloc::{AllocError, Global};

pub struct MergeRenames;

const MARKERS: Markers<'static> = Markers {
    ours: "<<<<<<< ours",
    middle: "=======",
    theirs: ">>>>>>> theirs",
};

// The versions of three texts, or `None` if one of them can't be parsed.
fn versions_of<'s>(
    alloc: Global,
    base: &'s str,
    ours: &'s str,
    theirs: &'s str,
) -> Option<(Version<'s>, Version<'s>, Version<'s>)> {
    let Ok(base) = Version::parse(alloc, base) else {
        return None;
    };
    let Ok(ours) = Version::parse(alloc, ours) else {
        return None;
    };
    match Version::parse(alloc, theirs) {
        Ok(theirs) => Some((base, ours, theirs)),
        Err(_) => None,
    }
}

// The new text of a version, or `-`.
fn text_or_dash(text: &Option<String>) -> &str {
    match text {
        Some(text) => text.as_str(),
        None => "-",
    }
}

// The new text of a version, or its old one.
fn text_or<'t>(text: &'t Option<String>, old: &'t str) -> &'t str {
    match text {
        Some(text) => text.as_str(),
        None => old,
    }
}

// The new texts of the versions, with `¶` between them.
fn shown(alloc: Global, texts: &RenamedTexts) -> Result<String, AllocError> {
    let base = text_or_dash(&texts.base);
    let ours = text_or_dash(&texts.ours);
    let theirs = text_or_dash(&texts.theirs);
    format!(in alloc; "{base}¶{ours}¶{theirs}")
}

// The merge of three texts.
fn merged(alloc: Global, base: &str, ours: &str, theirs: &str) -> Result<String, AllocError> {
    let Some((base, ours, theirs)) = versions_of(alloc, base, ours, theirs) else {
        return String::from_str(alloc, "no bibliography");
    };
    let versions = Versions {
        base: &base,
        ours: &ours,
        theirs: &theirs,
    };
    Ok(merge(alloc, versions, versions, MARKERS)?.text)
}

// What a call prints for three texts.
fn answer_for(
    alloc: Global,
    call: &str,
    base: &str,
    ours: &str,
    theirs: &str,
) -> Result<String, AllocError> {
    let Some(found) = versions_of(alloc, base, ours, theirs) else {
        return String::from_str(alloc, "no bibliography");
    };
    let versions = Versions {
        base: &found.0,
        ours: &found.1,
        theirs: &found.2,
    };
    let texts = renamed_texts(alloc, versions)?;
    if call == "texts" {
        return shown(alloc, &texts);
    }
    merged(
        alloc,
        text_or(&texts.base, base),
        text_or(&texts.ours, ours),
        text_or(&texts.theirs, theirs),
    )
}

impl Calls for MergeRenames {
    fn answer(alloc: Global, call: &str, text: &str) -> Result<Option<String>, AllocError> {
        if call != "texts" && call != "merge" {
            return Ok(None);
        }
        let Some((base, sides)) = text.split_once('¶') else {
            return Ok(None);
        };
        match sides.split_once('¶') {
            Some((ours, theirs)) => Ok(Some(answer_for(alloc, call, base, ours, theirs)?)),
            None => Ok(None),
        }
    }
}
