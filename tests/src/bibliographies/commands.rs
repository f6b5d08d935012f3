//! The program `bib`: its status, and what it prints.

use bib_commands::run::run;
use bib_commands::streams::Input;
use biblatex::Output;
use std::alloc::{AllocError, Global};
use std::str;

// The words that blanks separate.
fn words(alloc: Global, text: &str) -> Result<Vec<String>, AllocError> {
    let mut words = Vec::new(alloc);
    for word in text.split_ascii_whitespace() {
        words.push(String::from_str(alloc, word)?)?;
    }
    Ok(words)
}

/// The status of the program with these words on this input, and what it prints.
pub(crate) fn printed(alloc: Global, call: &str, input: &str) -> Result<String, AllocError> {
    let words = words(alloc, call)?;
    let mut input = Input::new(input.as_bytes());
    let mut output = Output::new(Vec::new(alloc));
    let status = run(alloc, &words, &mut input, &mut output);
    let written = output.into_writer();
    let text = str::from_utf8(&written).unwrap_or("no text");
    format!(in alloc; "{status} {text}")
}
