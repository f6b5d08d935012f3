//! Reads rows, a call and texts in each line with `¶` between them, and prints each with an answer. `entry` merges three versions of an
//! entry: the base, ours and theirs. `none` is an absent base. It prints the merged text, or the names of the conflicting fields and the two
//! texts, or `whole`. `lines` prints two texts as one, with marker lines. `none` is an absent text.

use crate::support::rows::Calls;
use edit_entries::document::RawDocument;
use edit_entry_merge::conflict_text::{Markers, conflict_text};
use edit_entry_merge::merging::{EntryMerge, merge_entry};
use std::alloc::{AllocError, Global};

pub struct EntryMerges;

const MARKERS: Markers<'static> = Markers {
    ours: "<<",
    middle: "==",
    theirs: ">>",
};

// A merge as a text.
fn printed(alloc: Global, merge: EntryMerge) -> Result<String, AllocError> {
    match merge {
        EntryMerge::Whole => String::from_str(alloc, "whole"),
        EntryMerge::Merged(text) => Ok(text),
        EntryMerge::Fields { ours, theirs, names } => {
            let mut out = String::new(alloc);
            for name in &names {
                out.push_str(name.as_str())?;
                out.push_str(" ")?;
            }
            out.push_str("/ ")?;
            out.push_str(&ours)?;
            out.push_str(" / ")?;
            out.push_str(&theirs)?;
            Ok(out)
        }
    }
}

// The merge of three versions.
fn merged(alloc: Global, base: &str, ours: &str, theirs: &str) -> Result<String, AllocError> {
    let Ok(our_document) = RawDocument::parse(alloc, ours) else {
        return String::from_str(alloc, "no bibliography");
    };
    let Ok(their_document) = RawDocument::parse(alloc, theirs) else {
        return String::from_str(alloc, "no bibliography");
    };
    if base == "none" {
        return printed(alloc, merge_entry(alloc, None, &our_document, &their_document)?);
    }
    let Ok(base_document) = RawDocument::parse(alloc, base) else {
        return String::from_str(alloc, "no bibliography");
    };
    let merge = merge_entry(alloc, Some(&base_document), &our_document, &their_document)?;
    printed(alloc, merge)
}

// The text that a row writes, or `None` for `none`.
fn text_of(text: &str) -> Option<&str> {
    if text == "none" { None } else { Some(text) }
}

impl Calls for EntryMerges {
    fn answer(alloc: Global, call: &str, text: &str) -> Result<Option<String>, AllocError> {
        let Some((first, rest)) = text.split_once('¶') else {
            return Ok(None);
        };
        match call {
            "lines" => Ok(Some(conflict_text(alloc, MARKERS, text_of(first), text_of(rest))?)),
            "entry" => match rest.split_once('¶') {
                Some((ours, theirs)) => Ok(Some(merged(alloc, first, ours, theirs)?)),
                None => Ok(None),
            },
            _ => Ok(None),
        }
    }
}
