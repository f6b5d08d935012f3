//! Reports on entries, editors and their roles, and the names of parents.

use biblatex::{Bibliography, EditorType, Entry, Person, Report, TypeError};
use std::alloc::{AllocError, Global};

// Adds names, each after a sign.
fn push_names(out: &mut String, sign: char, names: &[&'static str]) -> Result<(), AllocError> {
    for name in names {
        out.push(' ')?;
        out.push(sign)?;
        out.push_str(*name)?;
    }
    Ok(())
}

// A report: whether it is fine, names that are missing after `-`, names that are superfluous after `+`, and malformed
// fields, each with its error.
fn report_text(alloc: Global, report: &Report) -> Result<String, AllocError> {
    let mut out = String::from_str(alloc, if report.is_ok() { "ok" } else { "no" })?;
    push_names(&mut out, '-', report.missing.as_slice())?;
    push_names(&mut out, '+', report.superfluous.as_slice())?;
    for (name, error) in &report.malformed {
        let error = format!(in alloc; " {}({})", name.as_str(), error.kind)?;
        out.push_str(error.as_str())?;
    }
    Ok(out)
}

// What is wrong with an entry. (It and the next two have no contracts, so that who calls them proves nothing again.)
fn verify(alloc: Global, entry: &Entry) -> Result<Report, AllocError> {
    entry.verify(alloc)
}

// The editors of an entry.
fn read_editors(alloc: Global, entry: &Entry) -> Result<Vec<(Vec<Person>, EditorType)>, TypeError> {
    entry.editors(alloc)
}

// The names of the entries that an entry belongs to.
fn read_parents(alloc: Global, entry: &Entry) -> Result<Vec<String>, TypeError> {
    entry.parents(alloc)
}

/// The report on the entry `e`.
pub(crate) fn report(alloc: Global, bibliography: &Bibliography) -> Result<String, AllocError> {
    let Some(entry) = bibliography.get("e") else {
        return String::from_str(alloc, "no entry");
    };
    let report = verify(alloc, entry)?;
    report_text(alloc, &report)
}

// Adds the people of one role: `founder: B,A D,C`, name before given name.
fn push_role(
    out: &mut String,
    alloc: Global,
    people: &[Person],
    role: &EditorType,
) -> Result<(), AllocError> {
    out.push_str(role.as_ref())?;
    out.push(':')?;
    for person in people {
        let name = format!(in alloc; " {},{}", person.name.as_str(), person.given_name.as_str())?;
        out.push_str(name.as_str())?;
    }
    Ok(())
}

// Editors, each role with a semicolon after it.
fn editors_text(
    alloc: Global,
    editors: &[(Vec<Person>, EditorType)],
) -> Result<String, AllocError> {
    let mut out = String::new(alloc);
    for (people, role) in editors {
        push_role(&mut out, alloc, people.as_slice(), role)?;
        out.push(';')?;
    }
    Ok(out)
}

/// The editors of the entry `e`.
pub(crate) fn editors(alloc: Global, bibliography: &Bibliography) -> Result<String, AllocError> {
    let Some(entry) = bibliography.get("e") else {
        return String::from_str(alloc, "no entry");
    };
    match read_editors(alloc, entry) {
        Ok(editors) => editors_text(alloc, editors.as_slice()),
        Err(error) => error.to_string(alloc),
    }
}

// Texts, separated by spaces.
fn joined(alloc: Global, texts: &[String]) -> Result<String, AllocError> {
    let mut out = String::new(alloc);
    for text in texts {
        if !out.is_empty() {
            out.push(' ')?;
        }
        out.push_str(text.as_str())?;
    }
    Ok(out)
}

/// The parents of the entry `c`.
pub(crate) fn parents(alloc: Global, bibliography: &Bibliography) -> Result<String, AllocError> {
    let Some(entry) = bibliography.get("c") else {
        return String::from_str(alloc, "no entry");
    };
    match read_parents(alloc, entry) {
        Ok(parents) => joined(alloc, parents.as_slice()),
        Err(error) => error.to_string(alloc),
    }
}
