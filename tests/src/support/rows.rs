//! Rows: a line is a call and its argument with a bar between them, and is printed with what the call answers after it.

use crate::support::escapes::{push_shortened, unescaped};
use std::alloc::{AllocError, Global};

/// The calls of a layer.
pub trait Calls {
    /// What a call answers as a text, or `None` where there is no call of this name.
    fn answer(alloc: Global, call: &str, argument: &str) -> Result<Option<String>, AllocError>;
}

// Adds a row's answer.
fn push_answer<C: Calls>(
    out: &mut String,
    alloc: Global,
    call: &str,
    argument: &str,
) -> Result<(), AllocError> {
    let argument = unescaped(alloc, argument)?;
    out.push_str(" => ")?;
    match C::answer(alloc, call, argument.as_str())? {
        Some(answer) => push_shortened(out, alloc, answer.as_str()),
        None => Ok(out.push_str("there is no such call")?),
    }
}

/// Each row of the input with its answer after it. Lines without a bar are headings, and stand as they are.
pub fn answered<C: Calls>(alloc: Global, input: &str) -> Result<String, AllocError> {
    let mut out = String::new(alloc);
    for line in input.split('\n') {
        if !out.is_empty() {
            out.push('\n')?;
        }
        out.push_str(line)?;
        if let Some((call, argument)) = line.split_once('|') {
            push_answer::<C>(&mut out, alloc, call, argument)?;
        }
    }
    Ok(out)
}
