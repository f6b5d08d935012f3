//! Characters that a line can't hold or doesn't show are written as their numbers: `⟨A⟩` is a line feed, `⟨A0⟩` a no-break space. A long
//! text is written as `⟨1000×ab⟩`, and a long answer as its length and its SHA-256, which tests/expected.py computes of the wanted text.

use sha2::{Digest, Sha256};
use std::alloc::{AllocError, Global};

// Adds a text so many times.
fn push_times(out: &mut String, count: u32, text: &str) -> Result<(), AllocError> {
    for _ in 0..count {
        out.push_str(text)?;
    }
    Ok(())
}

// Adds the character of a number, or what stands there where it is no number of one.
fn push_character(out: &mut String, number: &str) -> Result<(), AllocError> {
    match u32::from_str_radix(number, 16) {
        Ok(number) => Ok(out.push(char::from_u32(number).unwrap_or('\u{fffd}'))?),
        Err(_) => Ok(out.push_str(number)?),
    }
}

// Adds what stands between brackets: a character, or a text so many times.
fn push_bracketed(out: &mut String, inside: &str) -> Result<(), AllocError> {
    match inside.split_once('×') {
        Some((count, text)) => push_times(out, count.parse().unwrap_or(0), text),
        None => push_character(out, inside),
    }
}

/// A text with its characters in place of their numbers.
pub fn unescaped(alloc: Global, text: &str) -> Result<String, AllocError> {
    let mut out = String::new(alloc);
    for piece in text.split('⟨') {
        match piece.split_once('⟩') {
            Some((number, rest)) => {
                push_bracketed(&mut out, number)?;
                out.push_str(rest)?;
            }
            None => out.push_str(piece)?,
        }
    }
    Ok(out)
}

// Whether a line shows a character.
fn is_shown(c: char) -> bool {
    let code = c as u32;
    let is_control = code < 0x20 || (0x7f..0xa1).contains(&code) || code == 0xad;
    let is_space = (0x2000..0x2010).contains(&code) || (0x2028..0x2030).contains(&code);
    let is_mark = (0x300..0x370).contains(&code);
    let is_past_the_plane = code >= 0xe000;
    !(is_control || is_space || is_mark || is_past_the_plane)
}

/// Adds a text with numbers in place of the characters that a line doesn't show.
pub fn push_escaped(out: &mut String, alloc: Global, text: &str) -> Result<(), AllocError> {
    for c in text.chars() {
        if is_shown(c) {
            out.push(c)?;
        } else {
            let number = format!(in alloc; "⟨{:X}⟩", c as u32)?;
            out.push_str(number.as_str())?;
        }
    }
    Ok(())
}

// The number of bytes of the shortest long answer; tests/expected.py has the same.
const LONG: usize = 5_000;

// The length of a text in bytes, and its SHA-256.
fn digest_text(alloc: Global, text: &str) -> Result<String, AllocError> {
    let mut out = format!(in alloc; "{} bytes, SHA-256 ", text.len())?;
    for byte in &Sha256::digest(text.as_bytes()) {
        let digits = format!(in alloc; "{:02x}", *byte)?;
        out.push_str(digits.as_str())?;
    }
    Ok(out)
}

/// Adds an answer, with numbers as in `push_escaped`, or its length and SHA-256 if it is long.
pub fn push_shortened(out: &mut String, alloc: Global, text: &str) -> Result<(), AllocError> {
    if text.len() < LONG {
        return push_escaped(out, alloc, text);
    }
    Ok(out.push_str(digest_text(alloc, text)?.as_str())?)
}
