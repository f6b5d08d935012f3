//! Calls on times, their offsets, and what separates the parts of dates.

use crate::values::notation::{clock_and_offset, clock_of, time_of};
use bib_dates::date::{Time, TimeOffset};
use bib_dates::separators::{parse_colon, parse_hyphen};
use bib_tables::type_error::TypeError;
use bib_text::scanner::Scanner;
use std::alloc::{AllocError, Global};
use crate::support::dates::{offset_text, time_text};

// The time of hour, minute and second.
fn from_hms(alloc: Global, text: &str) -> Result<String, AllocError> {
    let (hour, minute, second) = clock_of(text);
    time_text(alloc, Time::from_hms(hour, minute, second))
}

// The time of hour, minute, second and offset.
fn from_hms_offset(alloc: Global, text: &str) -> Result<String, AllocError> {
    let (clock, offset) = clock_and_offset(text);
    let (hour, minute, second) = clock_of(clock);
    let offset = offset.unwrap_or(TimeOffset::Utc);
    time_text(alloc, Time::from_hms_offset(hour, minute, second, offset))
}

// The offset of whole hours, and whether it is the one after the semicolon.
fn offset_hour(alloc: Global, text: &str) -> Result<String, AllocError> {
    let (hours, other) = text.split_once(';').unwrap_or((text, ""));
    let hours = hours.parse::<i32>().unwrap_or(0);
    if hours < -255 || 255 < hours {
        return String::from_str(alloc, "there is no such offset");
    }
    let offset = TimeOffset::offset_hour(hours);
    let (_, other) = clock_and_offset(other);
    let is_same = Some(offset) == other;
    let text = offset_text(alloc, Some(offset))?;
    format!(in alloc; "{text} {is_same}")
}

// How far a reader came, and its error if it gave one.
fn reached(
    alloc: Global,
    scanner: &Scanner<'_>,
    answer: Result<(), TypeError>,
) -> Result<String, AllocError> {
    let at = scanner.cursor();
    match answer {
        Ok(()) => at.to_string(alloc),
        Err(error) => format!(in alloc; "{at}, {error}"),
    }
}

// How far the hyphens reach.
fn hyphens(alloc: Global, text: &str) -> Result<String, AllocError> {
    let mut scanner = Scanner::new(text);
    let answer = parse_hyphen(&mut scanner);
    reached(alloc, &scanner, answer)
}

// How far the colon reaches.
fn colon(alloc: Global, text: &str) -> Result<String, AllocError> {
    let mut scanner = Scanner::new(text);
    let answer = parse_colon(&mut scanner);
    reached(alloc, &scanner, answer)
}

/// What a call answers.
pub fn answer(alloc: Global, call: &str, text: &str) -> Result<Option<String>, AllocError> {
    Ok(Some(match call {
        "Time::from_hms" => from_hms(alloc, text)?,
        "Time::from_hms_offset" => from_hms_offset(alloc, text)?,
        "Time::to_utc_seconds" => time_of(text).to_utc_seconds().to_string(alloc)?,
        "TimeOffset::offset_hour" => offset_hour(alloc, text)?,
        "parse_hyphen" => hyphens(alloc, text)?,
        "parse_colon" => colon(alloc, text)?,
        _ => return Ok(None),
    }))
}
