//! Values as texts.

use crate::support::dates::date_text;
use bib_chunks::chunk::Chunks;
use bib_dates::date::Date;
use bib_tables::types::lang::Language;
use bib_tables::types::{EditorType, Gender, Pagination};
use bib_people::person::Person;
use bib_text::text::Text;
use bib_typed::typed::PermissiveType;
use std::alloc::{AllocError, Global};
use std::fmt::Display;
use std::ops::Range;
use crate::support::chunks::chunks_text;

/// A value as a text.
pub trait Shown {
    /// The text.
    fn shown(&self, alloc: Global) -> Result<String, AllocError>;
}

impl Shown for i64 {
    fn shown(&self, alloc: Global) -> Result<String, AllocError> {
        self.to_string(alloc)
    }
}

impl Shown for String {
    fn shown(&self, alloc: Global) -> Result<String, AllocError> {
        self.clone()
    }
}

impl Shown for Range<u32> {
    fn shown(&self, alloc: Global) -> Result<String, AllocError> {
        format!(in alloc; "{}..{}", self.start, self.end)
    }
}

impl Shown for Pagination {
    fn shown(&self, alloc: Global) -> Result<String, AllocError> {
        String::from_str(alloc, self.as_ref())
    }
}

impl Shown for Gender {
    fn shown(&self, alloc: Global) -> Result<String, AllocError> {
        String::from_str(alloc, self.as_ref())
    }
}

impl Shown for Language {
    fn shown(&self, alloc: Global) -> Result<String, AllocError> {
        self.to_string(alloc)
    }
}

/// The name of a type, and the text of an unknown one in parentheses.
impl Shown for EditorType {
    fn shown(&self, alloc: Global) -> Result<String, AllocError> {
        match self {
            EditorType::Unknown(text) => format!(in alloc; "Unknown({})", text.as_str()),
            _ => String::from_str(alloc, self.as_ref()),
        }
    }
}

impl Shown for Chunks {
    fn shown(&self, alloc: Global) -> Result<String, AllocError> {
        chunks_text(alloc, self.as_slice())
    }
}

impl Shown for Date {
    fn shown(&self, alloc: Global) -> Result<String, AllocError> {
        date_text(alloc, *self)
    }
}

impl<T: Shown> Shown for PermissiveType<T> {
    fn shown(&self, alloc: Global) -> Result<String, AllocError> {
        match self {
            PermissiveType::Typed(value) => {
                let text = value.shown(alloc)?;
                format!(in alloc; "Typed({text})")
            }
            PermissiveType::Chunks(chunks) => {
                let text = chunks.shown(alloc)?;
                format!(in alloc; "Chunks({text})")
            }
        }
    }
}

/// The elements, each after a bar.
impl<T: Shown> Shown for Vec<T> {
    fn shown(&self, alloc: Global) -> Result<String, AllocError> {
        let mut out = String::new(alloc);
        for element in self {
            let text = element.shown(alloc)?;
            out.push('|')?;
            out.push_str(text.as_str())?;
        }
        Ok(out)
    }
}

// Adds an optional part of a name after its key.
fn push_part(out: &mut String, key: &str, part: &Option<Text>) -> Result<(), AllocError> {
    if let Some(text) = part {
        out.push_str(key)?;
        out.push_str(text.as_str())?;
    }
    Ok(())
}

// Whether the prefix counts, where that is said.
fn use_of_prefix(person: &Person) -> &'static str {
    match person.use_prefix {
        Some(true) => " with",
        Some(false) => " without",
        None => "",
    }
}

/// Name, given name, prefix and suffix with slashes between them, and then those of the other parts that are there.
impl Shown for Person {
    fn shown(&self, alloc: Global) -> Result<String, AllocError> {
        let (name, given) = (self.name.as_str(), self.given_name.as_str());
        let (prefix, suffix) = (self.prefix.as_str(), self.suffix.as_str());
        let mut out = format!(in alloc; "{name}/{given}/{prefix}/{suffix}")?;
        push_part(&mut out, " id=", &self.id)?;
        push_part(&mut out, " prefix-i=", &self.prefix_initials)?;
        push_part(&mut out, " given-i=", &self.given_initials)?;
        out.push_str(use_of_prefix(self))?;
        Ok(out)
    }
}

/// What was read, or the text of the error.
pub fn answer_of<T: Shown + Drop, E: Display + Drop>(
    alloc: Global,
    read: Result<T, E>,
) -> Result<String, AllocError> {
    match read {
        Ok(value) => value.shown(alloc),
        Err(error) => error.to_string(alloc),
    }
}

/// A text that two ways gave, or both where they differ.
pub fn agreed(alloc: Global, one: String, other: String) -> Result<String, AllocError> {
    if one.as_str() == other.as_str() {
        return Ok(one);
    }
    format!(in alloc; "differ: {one} / {other}")
}
