//! The tests: rows, and calls that no row says.
//!
//! The program reads rows of the layer that its argument names, a call and its argument in each line, and prints each
//! with what the call answers.
#![tactic(auto)]

mod bibliographies;
#[cfg(test)]
mod bibliography_calls;
#[cfg(test)]
mod calls;
mod contents;
mod conversions;
mod documents;
mod entries;
mod entry_merges;
mod excerpts;
mod exports;
mod formats;
#[cfg(test)]
mod guide;
mod imports;
mod items;
mod json_imports;
mod keys;
mod merge_renames;
mod merges;
mod orders;
mod recodings;
mod records;
mod resolutions;
mod selections;
mod sortings;
mod strings;
mod support;
mod syntax;
mod tables;
mod values;

use std::alloc::{AllocError, Global};
use std::{env, io};
use support::rows::answered;

// The rows of a layer with their answers.
fn rows(alloc: Global, layer: &str, input: &str) -> Result<String, AllocError> {
    match layer {
        "syntax" => answered::<syntax::Syntax>(alloc, input),
        "contents" => answered::<contents::Contents>(alloc, input),
        "tables" => answered::<tables::Tables>(alloc, input),
        "values" => answered::<values::Values>(alloc, input),
        "documents" => answered::<documents::Documents>(alloc, input),
        "conversions" => answered::<conversions::Conversions>(alloc, input),
        "entry_merges" => answered::<entry_merges::EntryMerges>(alloc, input),
        "excerpts" => answered::<excerpts::Excerpts>(alloc, input),
        "exports" => answered::<exports::Exports>(alloc, input),
        "formats" => answered::<formats::Formats>(alloc, input),
        "imports" => answered::<imports::Imports>(alloc, input),
        "items" => answered::<items::CslItems>(alloc, input),
        "json_imports" => answered::<json_imports::JsonImports>(alloc, input),
        "merge_renames" => answered::<merge_renames::MergeRenames>(alloc, input),
        "merges" => answered::<merges::Merges>(alloc, input),
        "orders" => answered::<orders::Orders>(alloc, input),
        "keys" => answered::<keys::Keys>(alloc, input),
        "recodings" => answered::<recodings::Recodings>(alloc, input),
        "records" => answered::<records::Records>(alloc, input),
        "resolutions" => answered::<resolutions::Resolutions>(alloc, input),
        "selections" => answered::<selections::Selections>(alloc, input),
        "sortings" => answered::<sortings::Sortings>(alloc, input),
        "strings" => answered::<strings::Strings>(alloc, input),
        "entries" => answered::<entries::Entries>(alloc, input),
        "bibliographies" => answered::<bibliographies::Bibliographies>(alloc, input),
        _ => String::from_str(alloc, "there is no such layer"),
    }
}

fn main(rt: HostRuntime) -> io::Result<()> {
    let alloc = rt.alloc();
    let mut arguments = env::args(&rt)?;
    let _program = arguments.next();
    let layer = arguments.next().unwrap_or(String::new(alloc));
    let input = io::read_to_string(alloc, &mut rt.reader())?;
    let output = rows(alloc, layer.as_str(), input.as_str())?;
    print!(rt; "{}", output.as_str())
}
