//! How two values compare.

use crate::values::notation::{datetime_of, time_of};
use bib_people::person::Person;
use std::alloc::{AllocError, Global};
use std::cmp::Ordering;
use crate::support::chunks::chunks_of;
use crate::support::shown::agreed;

// The word for an order.
fn word(order: Option<Ordering>) -> &'static str {
    match order {
        Some(Ordering::Less) => "less",
        Some(Ordering::Equal) => "equal",
        Some(Ordering::Greater) => "greater",
        None => "neither",
    }
}

// The order that the operators give.
fn by_operators<T: PartialOrd>(one: &T, other: &T) -> &'static str {
    if *one < *other {
        return "less";
    }
    if *one > *other {
        return "greater";
    }
    if *one == *other { "equal" } else { "neither" }
}

// The order of two values, by the call and by the operators.
fn order<T: PartialOrd>(alloc: Global, one: &T, other: &T) -> Result<String, AllocError> {
    let by_call = String::from_str(alloc, word(one.partial_cmp(other)))?;
    let by_operators = String::from_str(alloc, by_operators(one, other))?;
    agreed(alloc, by_call, by_operators)
}

// The person of a name.
fn person(alloc: Global, name: &str) -> Result<Person, AllocError> {
    let chunks = chunks_of(alloc, name)?;
    Person::parse(alloc, chunks.as_slice())
}

// The order of two people, by `cmp` as well.
fn people(alloc: Global, one: &str, other: &str) -> Result<String, AllocError> {
    let (one, other) = (person(alloc, one)?, person(alloc, other)?);
    let by_parts = order(alloc, &one, &other)?;
    let by_call = String::from_str(alloc, word(Some(one.cmp(&other))))?;
    agreed(alloc, by_call, by_parts)
}

/// How two values of a type compare that a semicolon separates.
pub fn answer(alloc: Global, kind: &str, text: &str) -> Result<Option<String>, AllocError> {
    let (one, other) = text.split_once(';').unwrap_or((text, ""));
    Ok(Some(match kind {
        "Person" => people(alloc, one, other)?,
        "Time" => order(alloc, &time_of(one), &time_of(other))?,
        "Datetime" => order(alloc, &datetime_of(one), &datetime_of(other))?,
        _ => return Ok(None),
    }))
}
