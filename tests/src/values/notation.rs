//! Dates and times of the texts that they are shown as: `?~2020 3 - - to 2021 - - 18:30:0+1:30`.

use bib_dates::date::{Date, DateValue, Datetime, Time, TimeOffset};

// A number of 8 bits; a dash is none.
fn small(text: &str) -> Option<u8> {
    text.parse::<u8>().ok()
}

/// Two numbers of 8 bits with a colon between them.
pub fn pair_of(text: &str) -> (u8, u8) {
    let (one, other) = text.split_once(':').unwrap_or((text, ""));
    (small(one).unwrap_or(0), small(other).unwrap_or(0))
}

/// Hour, minute and second.
pub fn clock_of(text: &str) -> (u8, u8, u8) {
    let (hour, rest) = text.split_once(':').unwrap_or((text, ""));
    let (minute, second) = pair_of(rest);
    (small(hour).unwrap_or(0), minute, second)
}

// The offset of hours and minutes.
fn signed(positive: bool, text: &str) -> TimeOffset {
    let (hours, minutes) = pair_of(text);
    TimeOffset::offset(positive, hours, minutes)
}

/// The clock of a time, and its offset, if there is one.
pub fn clock_and_offset(text: &str) -> (&str, Option<TimeOffset>) {
    if let Some((clock, offset)) = text.split_once('+') {
        return (clock, Some(signed(true, offset)));
    }
    if let Some((clock, offset)) = text.split_once('-') {
        return (clock, Some(signed(false, offset)));
    }
    match text.split_once('Z') {
        Some((clock, _)) => (clock, Some(TimeOffset::Utc)),
        None => (text, None),
    }
}

/// A time, whether or not a day has it.
pub fn time_of(text: &str) -> Time {
    let (clock, offset) = clock_and_offset(text);
    let (hour, minute, second) = clock_of(clock);
    Time {
        hour,
        minute,
        second,
        offset,
    }
}

// A time; a dash is none.
fn optional_time_of(text: &str) -> Option<Time> {
    if text == "-" {
        return None;
    }
    Some(time_of(text))
}

/// Year, month, day and time.
pub fn datetime_of(text: &str) -> Datetime {
    let (year, rest) = text.split_once(' ').unwrap_or((text, ""));
    let (month, rest) = rest.split_once(' ').unwrap_or((rest, ""));
    let (day, time) = rest.split_once(' ').unwrap_or((rest, "-"));
    Datetime {
        year: year.parse::<i32>().unwrap_or(0),
        month: small(month),
        day: small(day),
        time: optional_time_of(time),
    }
}

/// The sides of a date.
pub fn value_of(text: &str) -> DateValue {
    if let Some((start, end)) = text.split_once(" to ") {
        return DateValue::Between(datetime_of(start), datetime_of(end));
    }
    let (word, date) = text.split_once(' ').unwrap_or((text, ""));
    let date = datetime_of(date);
    match word {
        "after" => DateValue::After(date),
        "before" => DateValue::Before(date),
        _ => DateValue::At(date),
    }
}

// Whether a mark stands at the start, and what stands after it.
fn marked(text: &str, mark: char) -> (bool, &str) {
    match text.strip_prefix(mark) {
        Some(rest) => (true, rest),
        None => (false, text),
    }
}

/// A date.
pub fn date_of(text: &str) -> Date {
    let (uncertain, text) = marked(text, '?');
    let (approximate, text) = marked(text, '~');
    Date {
        value: value_of(text),
        uncertain,
        approximate,
    }
}
