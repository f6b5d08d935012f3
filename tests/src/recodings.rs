//! Reads rows, a call and its argument in each line, and prints each with the answer. `decode NAME` decodes bytes, given by pairs of
//! hexadecimal digits, in the encoding with this name. `detect` detects the encoding of such bytes. `ends NAME` and `mark NAME` give a
//! text line ends of this kind, the second one with a byte order mark.

use bib_recode::decoding::{DecodeError, decode};
use bib_recode::encoding::{Encoding, detect};
use bib_recode::line_ends::{LineEnds, with_line_ends};
use crate::support::rows::Calls;
use std::alloc::{AllocError, Global};

pub struct Recodings;

// The bytes that pairs of hexadecimal digits stand for.
fn bytes_of(alloc: Global, digits: &str) -> Result<Vec<u8>, AllocError> {
    let mut bytes = Vec::new(alloc);
    for pair in digits.split(' ') {
        if !pair.is_empty() {
            bytes.push(u8::from_str_radix(pair, 16).unwrap_or(0))?;
        }
    }
    Ok(bytes)
}

// The name of an encoding.
fn name_of(encoding: Encoding) -> &'static str {
    match encoding {
        Encoding::Utf8 => "utf-8",
        Encoding::Utf16LittleEndian => "utf-16le",
        Encoding::Utf16BigEndian => "utf-16be",
        Encoding::Windows1252 => "windows-1252",
        Encoding::Latin1 => "latin1",
    }
}

// The decoded text, or the error.
fn decoded(alloc: Global, encoding: Encoding, bytes: &[u8]) -> Result<String, AllocError> {
    match decode(alloc, bytes, encoding) {
        Ok(text) => Ok(text),
        Err(DecodeError::NotUtf8 { at }) => format!(in alloc; "no UTF-8 at {at}"),
        Err(DecodeError::UnpairedSurrogate { at }) => format!(in alloc; "unpaired surrogate at {at}"),
        Err(DecodeError::OddByte { at }) => format!(in alloc; "odd byte at {at}"),
        Err(DecodeError::OutOfMemory) => Err(AllocError),
    }
}

impl Calls for Recodings {
    fn answer(alloc: Global, call: &str, text: &str) -> Result<Option<String>, AllocError> {
        if call == "detect" {
            let bytes = bytes_of(alloc, text)?;
            return Ok(Some(String::from_str(alloc, detect(&bytes).map(name_of).unwrap_or("unknown"))?));
        }
        if call == "name" {
            let name = Encoding::from_name(text).map(name_of).unwrap_or("unknown");
            return Ok(Some(String::from_str(alloc, name)?));
        }
        let Some((call, name)) = call.split_once(' ') else {
            return Ok(None);
        };
        if let (true, Some(encoding)) = (call == "decode", Encoding::from_name(name)) {
            return Ok(Some(decoded(alloc, encoding, &bytes_of(alloc, text)?)?));
        }
        match LineEnds::from_name(name) {
            Some(ends) => Ok(Some(with_line_ends(alloc, text, ends, call == "mark")?)),
            None => Ok(None),
        }
    }
}
