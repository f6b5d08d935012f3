//! Dates and times as texts: years, months and days as the values have them, so that months and days count from 0, and a
//! dash for a part that isn't there.

use bib_dates::date::{Date, DateValue, Datetime, Time, TimeOffset};
use std::alloc::{AllocError, Global};

// A month or a day.
fn number_text(alloc: Global, number: Option<u8>) -> Result<String, AllocError> {
    match number {
        Some(number) => number.to_string(alloc),
        None => String::from_str(alloc, "-"),
    }
}

/// `Z` for UTC, else a sign, hours and minutes: `+1:30`. Nothing where there is no offset.
pub fn offset_text(alloc: Global, offset: Option<TimeOffset>) -> Result<String, AllocError> {
    let Some(offset) = offset else {
        return Ok(String::new(alloc));
    };
    match offset {
        TimeOffset::Utc => String::from_str(alloc, "Z"),
        TimeOffset::Offset {
            positive,
            hours,
            minutes,
        } => {
            let sign = if positive { "+" } else { "-" };
            format!(in alloc; "{sign}{hours}:{minutes}")
        }
    }
}

/// Hour, minute, second and the offset: `18:30:31-1:30`.
pub fn time_text(alloc: Global, time: Option<Time>) -> Result<String, AllocError> {
    let Some(time) = time else {
        return String::from_str(alloc, "-");
    };
    let offset = offset_text(alloc, time.offset)?;
    format!(in alloc; "{}:{}:{}{offset}", time.hour, time.minute, time.second)
}

/// Year, month, day and time: `2020 3 - -`.
pub fn datetime_text(alloc: Global, date: Datetime) -> Result<String, AllocError> {
    let month = number_text(alloc, date.month)?;
    let day = number_text(alloc, date.day)?;
    let time = time_text(alloc, date.time)?;
    format!(in alloc; "{} {month} {day} {time}", date.year)
}

// The sides of a date with words that say which they are.
fn value_text(alloc: Global, value: DateValue) -> Result<String, AllocError> {
    let first = datetime_text(alloc, value.first_side())?;
    match value {
        DateValue::At(_) => format!(in alloc; "at {first}"),
        DateValue::After(_) => format!(in alloc; "after {first}"),
        DateValue::Before(_) => format!(in alloc; "before {first}"),
        DateValue::Between(_, end) => {
            let second = datetime_text(alloc, end)?;
            format!(in alloc; "{first} to {second}")
        }
    }
}

/// The date, after `?` if it isn't sure and after `~` if it isn't exact: `?after 2020 3 - -`, `1900 - - - to 1999 - - -`.
pub fn date_text(alloc: Global, date: Date) -> Result<String, AllocError> {
    let uncertain = if date.uncertain { "?" } else { "" };
    let approximate = if date.approximate { "~" } else { "" };
    let value = value_text(alloc, date.value)?;
    format!(in alloc; "{uncertain}{approximate}{value}")
}
