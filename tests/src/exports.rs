//! Reads rows, a file in each line, and prints each with its entries for other programs: `json` as an array of JSON, `ris` as
//! records of RIS. `object` and `record` do so with the entry of these fields; `type` prints what a field of this name is read as.

use bib_json::arrays::{array_end, before_element};
use bib_json::entries::entry_text;
use bib_json::types::value_type;
use bib_ris::records::record_text;
use biblatex::{Bibliography, ParseError};
use std::alloc::{AllocError, Global};
use crate::entries::fields::entry_of;
use crate::support::rows::Calls;

pub struct Exports;

// The entries of a bibliography as an array of JSON.
fn json(alloc: Global, bibliography: &Bibliography) -> Result<String, AllocError> {
    let mut out = String::new(alloc);
    let mut is_first = true;
    for entry in bibliography.iter() {
        out.push_str(before_element(is_first))?;
        let text = entry_text(alloc, entry)?;
        out.push_str(text.as_str())?;
        is_first = false;
    }
    out.push_str(array_end(is_first))?;
    Ok(out)
}

// The entries of a bibliography as records of RIS.
fn ris(alloc: Global, bibliography: &Bibliography) -> Result<String, AllocError> {
    let mut out = String::new(alloc);
    for entry in bibliography.iter() {
        let record = record_text(alloc, entry)?;
        out.push_str(record.as_str())?;
    }
    Ok(out)
}

// What a field of this name is read as, or a dash.
fn named_type(alloc: Global, name: &str) -> Result<String, AllocError> {
    match value_type(name) {
        Some(value_type) => format!(in alloc; "{value_type:?}"),
        None => String::from_str(alloc, "-"),
    }
}

// What a call that takes a file answers.
fn of_file(alloc: Global, call: &str, file: &str) -> Result<Option<String>, ParseError> {
    let bibliography = Bibliography::parse(alloc, file)?;
    match call {
        "json" => Ok(Some(json(alloc, &bibliography)?)),
        "ris" => Ok(Some(ris(alloc, &bibliography)?)),
        _ => Ok(None),
    }
}

impl Calls for Exports {
    fn answer(alloc: Global, call: &str, text: &str) -> Result<Option<String>, AllocError> {
        match call {
            "type" => Ok(Some(named_type(alloc, text)?)),
            "object" => Ok(Some(entry_text(alloc, &entry_of(alloc, text)?)?)),
            "record" => Ok(Some(record_text(alloc, &entry_of(alloc, text)?)?)),
            _ => match of_file(alloc, call, text) {
                Ok(answer) => Ok(answer),
                Err(_) => Ok(Some(String::from_str(alloc, "no bibliography")?)),
            },
        }
    }
}
