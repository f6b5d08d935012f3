//! Genders, of one and of many.

use bib_tables::types::Gender;
use std::alloc::{AllocError, Global};

// The gender whose variant has this name.
fn gender_of(name: &str) -> Option<Gender> {
    match name {
        "SingularFemale" => Some(Gender::SingularFemale),
        "SingularMale" => Some(Gender::SingularMale),
        "SingularNeuter" => Some(Gender::SingularNeuter),
        "PluralFemale" => Some(Gender::PluralFemale),
        "PluralMale" => Some(Gender::PluralMale),
        "PluralNeuter" => Some(Gender::PluralNeuter),
        _ => None,
    }
}

/// A gender's name by `as_ref` and by `Display`, its plural and its singular.
pub fn gender(alloc: Global, name: &str) -> Result<String, AllocError> {
    let Some(it) = gender_of(name) else {
        return String::from_str(alloc, "there is no such variant");
    };
    let plural = it.plural();
    let singular = it.singular();
    Ok(format!(in alloc; "{} / {it} / {plural} / {singular}", it.as_ref())?)
}

// The genders of these names, with blanks between them.
fn genders_of(alloc: Global, names: &str) -> Result<Vec<Gender>, AllocError> {
    let mut all = Vec::new(alloc);
    for name in names.split(' ') {
        if let Some(it) = gender_of(name) {
            all.push(it)?;
        }
    }
    Ok(all)
}

/// The gender of a group of these genders, a dash where there is none.
pub fn coalesce(alloc: Global, names: &str) -> Result<String, AllocError> {
    let genders = genders_of(alloc, names)?;
    match Gender::coalesce(genders.as_slice()) {
        Some(it) => Ok(format!(in alloc; "{it}")?),
        None => String::from_str(alloc, "-"),
    }
}
