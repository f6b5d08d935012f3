//! Rows of bibliographies: what a file is read as, what is written of it, what changes leave, and what the program prints.

mod changes;
mod commands;
mod cuts;
mod entries;
mod errors;
mod findings;
mod inherited;
mod raw;
mod recovered;
mod reports;
mod reread;
mod steps;
mod written;

use biblatex::{Bibliography, ParseError};
use std::alloc::{AllocError, Global};
use crate::support::rows::Calls;

// The bibliography of a file. (It has no contract, so that who calls it proves nothing of the reading again.)
fn parsed(alloc: Global, file: &str) -> Result<Bibliography, ParseError> {
    Bibliography::parse(alloc, file)
}

// Whether it is so, as a text.
fn truth(alloc: Global, found: bool) -> Result<String, AllocError> {
    String::from_str(alloc, if found { "true" } else { "false" })
}

// What a call that takes a text answers.
fn answer_of_text(alloc: Global, call: &str, text: &str) -> Result<Option<String>, ParseError> {
    let answer = match call {
        "cuts" => Ok(cuts::cuts(alloc, text)?),
        "error" => Ok(errors::error(alloc, text)?),
        "changes" => changes::changes(alloc, text),
        "from raw" => raw::entries(alloc, text),
        "from raw counted" => raw::counted_entries(alloc, text),
        "turns" => raw::turns(alloc, text),
        "inherits" => inherited::inherited(alloc, text),
        "raw field" => raw::field(alloc, text),
        "raw settled" => raw::settled(alloc, text),
        "recover" => Ok(recovered::recover(alloc, text)?),
        "findings" => Ok(findings::findings(alloc, text)?),
        "all findings" => Ok(findings::all_findings(alloc, text)?),
        "recovered origins" => Ok(recovered::origins(alloc, text)?),
        "recovered fronts" => Ok(recovered::recovered_prefixes(alloc, text)?),
        "raw twice" => raw::twice(alloc, text),
        _ => return Ok(None),
    };
    Ok(Some(answer?))
}

// What a call that takes a bibliography answers.
fn answer_of_bibliography(
    alloc: Global,
    call: &str,
    bibliography: &Bibliography,
) -> Result<Option<String>, AllocError> {
    let answer = match call {
        "entries" => entries::entries(alloc, bibliography),
        "types" => entries::types(alloc, bibliography),
        "chunks" => entries::chunks(alloc, bibliography),
        "title" => entries::title(alloc, bibliography),
        "number" => entries::number(alloc, bibliography),
        "parents" => reports::parents(alloc, bibliography),
        "editors" => reports::editors(alloc, bibliography),
        "report" => reports::report(alloc, bibliography),
        "biblatex" => written::biblatex(alloc, bibliography),
        "bibtex" => written::bibtex(alloc, bibliography),
        "settled" => written::settled(alloc, bibliography),
        "again" => written::again(alloc, bibliography),
        "reread" => written::reread_entries(alloc, bibliography),
        _ => return Ok(None),
    };
    Ok(Some(answer?))
}

// What a call of a text or of the bibliography of a file answers.
fn answer(alloc: Global, call: &str, text: &str) -> Result<Option<String>, ParseError> {
    if let Some(words) = call.strip_prefix("bib ") {
        return Ok(Some(commands::printed(alloc, words, text)?));
    }
    if let Some(answer) = answer_of_text(alloc, call, text)? {
        return Ok(Some(answer));
    }
    let bibliography = parsed(alloc, text)?;
    Ok(answer_of_bibliography(alloc, call, &bibliography)?)
}

// The calls of bibliographies.
pub struct Bibliographies;

impl Calls for Bibliographies {
    fn answer(alloc: Global, call: &str, text: &str) -> Result<Option<String>, AllocError> {
        match answer(alloc, call, text) {
            Ok(answer) => Ok(answer),
            Err(error) => Ok(Some(format!(in alloc; "{error}")?)),
        }
    }
}
