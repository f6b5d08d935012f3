//! Calls on dates, and names of people as they are printed.

use crate::values::notation::{datetime_of, value_of};
use bib_chunks::chunk::{Chunk, Chunks, Spanned};
use bib_dates::date::Date;
use bib_people::person::Person;
use bib_text::items::Items;
use bib_text::text::Text;
use bib_typed::typed::Type;
use std::alloc::{AllocError, Global};
use crate::support::chunks::chunks_of;
use crate::support::dates::datetime_text;
use crate::support::shown::{agreed, answer_of};

// The date of one text, by its own call and by the type's.
fn parse(alloc: Global, text: &str) -> Result<String, AllocError> {
    let chunks = chunks_of(alloc, text)?;
    let by_date = answer_of(alloc, Date::parse(alloc, chunks.as_slice()))?;
    let by_type = answer_of(alloc, Date::from_chunks(alloc, chunks.as_slice()))?;
    agreed(alloc, by_date, by_type)
}

// One normal chunk at this byte of a file; a dash is none.
fn field_at(alloc: Global, text: &str, start: u16) -> Result<Option<Chunks>, AllocError> {
    if text == "-" {
        return Ok(None);
    }
    let start = usize::from(start);
    let chunk = Chunk::Normal(Text::from_str(alloc, text)?);
    let mut chunks = Items::new(alloc);
    chunks.push(Spanned::new(chunk, start..start.saturating_add(text.len())))?;
    Ok(Some(chunks))
}

// The date of a year, a month and a day, which stand at the bytes 10, 50 and 90.
fn parse_three_fields(alloc: Global, text: &str) -> Result<String, AllocError> {
    let (year, rest) = text.split_once(';').unwrap_or((text, "-"));
    let (month, day) = rest.split_once(';').unwrap_or((rest, "-"));
    let Some(year) = field_at(alloc, year, 10)? else {
        return String::from_str(alloc, "there is no year");
    };
    let month = field_at(alloc, month, 50)?;
    let day = field_at(alloc, day, 90)?;
    let month = month.as_ref().map(|chunks| chunks.as_slice());
    let day = day.as_ref().map(|chunks| chunks.as_slice());
    answer_of(
        alloc,
        Date::parse_three_fields(alloc, year.as_slice(), month, day),
    )
}

// A text or a dash.
fn or_dash(text: &Option<String>) -> &str {
    match text {
        Some(text) => text.as_str(),
        None => "-",
    }
}

// The texts of year, month and day.
fn texts(alloc: Global, text: &str) -> Result<String, AllocError> {
    let date = datetime_of(text);
    let year = date.year_text(alloc)?;
    let month = date.month_text(alloc)?;
    let day = date.day_text(alloc)?;
    format!(in alloc; "{year} {} {}", or_dash(&month), or_dash(&day))
}

// Both sides of a date, the second of which may not be there.
fn sides(alloc: Global, text: &str) -> Result<String, AllocError> {
    let value = value_of(text);
    let first = datetime_text(alloc, value.first_side())?;
    let Some(second) = value.second_side() else {
        return Ok(first);
    };
    let second = datetime_text(alloc, second)?;
    format!(in alloc; "{first} and {second}")
}

// The name of a person.
fn person(alloc: Global, text: &str) -> Result<String, AllocError> {
    let chunks = chunks_of(alloc, text)?;
    let person = Person::parse(alloc, chunks.as_slice())?;
    person.to_string(alloc)
}

/// What a call answers.
pub fn answer(alloc: Global, call: &str, text: &str) -> Result<Option<String>, AllocError> {
    Ok(Some(match call {
        "Date::parse" => parse(alloc, text)?,
        "Date::parse_three_fields" => parse_three_fields(alloc, text)?,
        "Datetime" => datetime_of(text).to_string(alloc)?,
        "texts" => texts(alloc, text)?,
        "sides" => sides(alloc, text)?,
        "Person" => person(alloc, text)?,
        _ => return Ok(None),
    }))
}
