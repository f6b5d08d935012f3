//! Copies of people, of dates and of errors, and chunks as they are formatted and written.

use crate::bibliography_calls::checks::agrees;
use biblatex::{
    Chunk, Chunks, ChunksExt, Date, DateValue, Datetime, Items, Person, RetrievalError, Spanned,
    Text, Time, TimeOffset, TypeError, TypeErrorKind, WriteError,
};
use std::alloc::{AllocError, Global};
use std::process::Abort;

// Whether a call gave the right value, or its refusal.
type Answer = Result<bool, AllocError>;

// Adds a chunk of no place.
fn push(chunks: &mut Chunks, chunk: Chunk) -> Result<(), AllocError> {
    chunks.push(Spanned::zero(chunk))?;
    Ok(())
}

// One normal chunk.
fn normal(alloc: Global, text: &str) -> Result<Chunks, AllocError> {
    let mut chunks = Items::new(alloc);
    push(&mut chunks, Chunk::Normal(Text::from_str(alloc, text)?))?;
    Ok(chunks)
}

// Chunks of all three kinds.
fn mixed(alloc: Global) -> Result<Chunks, AllocError> {
    let mut chunks = normal(alloc, "a & Big ")?;
    push(&mut chunks, Chunk::Verbatim(Text::from_str(alloc, "NASA")?))?;
    push(&mut chunks, Chunk::Math(Text::from_str(alloc, "x")?))?;
    Ok(chunks)
}

fn formats_verbatim(alloc: Global) -> Result<String, AllocError> {
    mixed(alloc)?.as_slice().format_verbatim(alloc)
}

fn formats_as_sentence(alloc: Global) -> Result<String, AllocError> {
    mixed(alloc)?.as_slice().format_sentence(alloc)
}

fn writes_a_value(alloc: Global) -> Result<String, AllocError> {
    mixed(alloc)?.as_slice().to_biblatex_string(alloc, false)
}

#[test]
fn formats_and_writes(rt: HostRuntime) -> Result<(), AllocError> {
    let alloc = rt.alloc();
    agrees(&rt, formats_verbatim(alloc)?.as_str(), "a & Big NASA$x$");
    agrees(&rt, formats_as_sentence(alloc)?.as_str(), "A & big NASA$x$");
    agrees(
        &rt,
        writes_a_value(alloc)?.as_str(),
        "{a \\& Big {NASA$x$}}",
    );
    Ok(())
}

// The person of a name.
fn person(alloc: Global, name: &str) -> Result<Person, AllocError> {
    Person::parse(alloc, normal(alloc, name)?.as_slice())
}

// An optional text, or nothing.
fn given(text: &Option<Text>) -> &str {
    text.as_ref().map_or("", |text| text.as_str())
}

// The parts of a person.
fn parts(alloc: Global, person: &Person) -> Result<String, AllocError> {
    let (id, prefix) = (given(&person.id), given(&person.prefix_initials));
    let initials = given(&person.given_initials);
    let first = format!(in alloc;
        "{} {} {}",
        person.name.as_str(),
        person.given_name.as_str(),
        id
    )?;
    let last = format!(in alloc; "{} {}", person.prefix.as_str(), person.suffix.as_str())?;
    let uses = person.use_prefix == Some(true);
    format!(in alloc;
        "{} {} {prefix} {initials} {uses}",
        first.as_str(),
        last.as_str()
    )
}

// The parts of a copy of a person.
fn copied_parts(alloc: Global, person: &Person) -> Result<String, AllocError> {
    let copy = person.clone()?;
    parts(alloc, &copy)
}

#[test]
fn copies_people(rt: HostRuntime) -> Result<(), AllocError> {
    let alloc = rt.alloc();
    let name = "family=F, given=G, prefix=P, suffix=S, id=I, prefix-i=A, given-i=B, useprefix=true";
    let person = person(alloc, name)?;
    agrees(
        &rt,
        copied_parts(alloc, &person)?.as_str(),
        "F G I P S A B true",
    );
    Ok(())
}

// A day with a time.
fn day() -> Datetime {
    let time = Time {
        hour: 1,
        minute: 2,
        second: 3,
        offset: Some(TimeOffset::offset(false, 1, 30)),
    };
    Datetime {
        year: 1066,
        month: Some(9),
        day: Some(13),
        time: Some(time),
    }
}

fn copies_times() -> Answer {
    let Some(time) = day().time else {
        return Ok(false);
    };
    let Some(offset) = time.offset else {
        return Ok(false);
    };
    Ok(offset.clone()? == offset && time.clone()? == time)
}

fn copies_dates() -> Answer {
    let value = DateValue::After(day());
    let date = Date {
        value,
        uncertain: true,
        approximate: false,
    };
    Ok(day().clone()? == day() && value.clone()? == value && date.clone()? == date)
}

fn copies_type_errors() -> Answer {
    let kind = TypeErrorKind::DayOutOfRange;
    let copy = TypeError { span: 3..5, kind }.clone()?;
    Ok(copy.span == (3..5) && copy.kind.clone()? == TypeErrorKind::DayOutOfRange)
}

fn copies_retrieval_errors() -> Answer {
    let kind = TypeErrorKind::DayOutOfRange;
    let error = RetrievalError::TypeError(TypeError { span: 3..5, kind });
    let RetrievalError::TypeError(copy) = error.clone()? else {
        return Ok(false);
    };
    Ok(copy.span == (3..5) && copy.kind == TypeErrorKind::DayOutOfRange)
}

fn copies_write_errors() -> Answer {
    Ok(WriteError::Refused.clone()? == WriteError::Refused)
}

// The call gave the right value.
fn is_right(rt: &impl Abort, call: &str, answer: Answer) {
    assert!(rt; matches!(answer, Ok(true)), "{call}");
}

#[test]
fn copies_dates_and_errors(rt: HostRuntime) {
    is_right(&rt, "Time::clone, TimeOffset::clone", copies_times());
    is_right(
        &rt,
        "Date::clone, Datetime::clone, DateValue::clone",
        copies_dates(),
    );
    is_right(
        &rt,
        "TypeError::clone, TypeErrorKind::clone",
        copies_type_errors(),
    );
    is_right(&rt, "RetrievalError::clone", copies_retrieval_errors());
    is_right(&rt, "WriteError::clone", copies_write_errors());
}
