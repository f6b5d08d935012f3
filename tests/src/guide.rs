//! The Rattle examples of docs/LIBRARY.md, each as a test, except for the first one and the three in the crate `guide`.

use biblatex::{
    Bibliography, BibliographyRecovery, DateValue, Entry, EntryType, ParseError, PermissiveType,
    Text,
};
use std::alloc::{AllocError, Global};
use std::test::Fail;

// Returns the bibliography of a file.
fn parsed(alloc: Global, src: &str) -> Result<Bibliography, ParseError> {
    Bibliography::parse(alloc, src)
}

// Returns the only entry of a file.
fn only_entry(alloc: Global, src: &str) -> Result<Entry, Fail> {
    let bibliography = parsed(alloc, src)?;
    let mut entries = bibliography.into_vec();
    let Some(entry) = entries.pop() else {
        return Err(Fail::from("no entry"));
    };
    Ok(entry)
}

// Returns the line of a byte in a text, and its column in characters, both counted from 1.
fn line_and_column(src: &str, at: usize) -> (usize, usize) {
    let mut line = 1usize;
    let mut column = 1usize;
    'characters: for (i, c) in src.char_indices() {
        if i >= at {
            return (line, column);
        }
        if c == '\n' {
            line = line.saturating_add(1);
            column = 1;
        } else {
            column = column.saturating_add(1);
        }
    }
    (line, column)
}

#[test]
fn report_an_error(rt: HostRuntime) -> Result<(), Fail> {
    let alloc = rt.alloc();
    let src = "@misc{a, title={A}}\n@misc{b, title={B}";
    let Err(error) = parsed(alloc, src) else {
        return Err(Fail::from("this file has an error"));
    };
    assert!(rt; line_and_column(src, error.span.start) == (2, 19));
    let text = error.to_string(alloc)?;
    assert!(rt; text.as_str() == "expected comma: 38-38");
    Ok(())
}

// Recovers what can be parsed of a file.
fn recovered(alloc: Global, src: &str) -> Result<BibliographyRecovery, AllocError> {
    Bibliography::recover(alloc, src)
}

// Adds an error with its line and column.
fn report(
    out: &mut String,
    alloc: Global,
    src: &str,
    error: &ParseError,
) -> Result<(), AllocError> {
    let (line, column) = line_and_column(src, error.span.start);
    let text = format!(in alloc; "{line}:{column}: {error}; ")?;
    out.push_str(text.as_str())?;
    Ok(())
}

#[test]
fn read_the_rest(rt: HostRuntime) -> Result<(), Fail> {
    let alloc = rt.alloc();
    let src = "@misc{a, title={A}\n@misc{b, title=foo, note={N}}\n@misc{b, title={B}}";
    let found = recovered(alloc, src)?;
    let mut errors = String::new(alloc);
    for block in &found.skipped {
        report(&mut errors, alloc, src, &block.error)?;
    }
    assert!(rt; errors.as_str() == "2:1: expected comma: 19-19; ");
    errors.clear();
    for error in &found.errors {
        report(&mut errors, alloc, src, error)?;
    }
    assert!(rt;
        errors.as_str()
            == "2:16: unknown abbreviation \"foo\": 34-37; 3:1: duplicate key \"b\": 49-67; "
    );
    assert!(rt; found.bibliography.get("a").is_some() && found.bibliography.get("b").is_some());
    Ok(())
}

#[test]
fn names_of_authors(rt: HostRuntime) -> Result<(), Fail> {
    let alloc = rt.alloc();
    let entry = only_entry(
        alloc,
        "@misc{k, author={Jean de La Fontaine and Doe, Jr., J.}}",
    )?;
    let authors = entry.author(alloc)?;
    let mut names = String::new(alloc);
    for person in &authors {
        names.push_str(person.name.as_str())?;
        names.push_str(", ")?;
        names.push_str(person.given_name.as_str())?;
        names.push_str("; ")?;
    }
    assert!(rt; names.as_str() == "La Fontaine, Jean; Doe, J.; ");
    Ok(())
}

#[test]
fn years_of_dates(rt: HostRuntime) -> Result<(), Fail> {
    let alloc = rt.alloc();
    let entry = only_entry(alloc, "@misc{k, year={1937}, month={sep}}")?;
    let PermissiveType::Typed(date) = entry.date(alloc)? else {
        return Err(Fail::from("this date can be read"));
    };
    let DateValue::At(day) = date.value else {
        return Err(Fail::from("this date is no range"));
    };
    assert!(rt; day.year == 1937);
    assert!(rt; day.month == Some(8));
    Ok(())
}

#[test]
fn numbers_of_pages(rt: HostRuntime) -> Result<(), Fail> {
    let alloc = rt.alloc();
    let entry = only_entry(alloc, "@misc{k, pages={31--43, 52}}")?;
    let PermissiveType::Typed(pages) = entry.pages(alloc)? else {
        return Err(Fail::from("these pages can be read"));
    };
    let Some(first) = pages.as_slice().first() else {
        return Err(Fail::from("there are pages"));
    };
    assert!(rt; pages.len() == 2);
    assert!(rt; first.start == 31 && first.end == 43);
    Ok(())
}

#[test]
fn what_is_wrong(rt: HostRuntime) -> Result<(), Fail> {
    let alloc = rt.alloc();
    let entry = only_entry(alloc, "@mvbook{m, title={x}, volume={y}}")?;
    let report = entry.verify(alloc)?;
    assert!(rt; report.missing.as_slice() == ["author", "year"].as_slice());
    assert!(rt; report.superfluous.as_slice() == ["volume"].as_slice());
    let mut errors = String::new(alloc);
    for (name, error) in &report.malformed {
        let reported = format!(in alloc; "{}: {}; ", name.as_str(), error.kind)?;
        errors.push_str(reported.as_str())?;
    }
    assert!(rt; errors.as_str() == "volume: invalid number; ");
    Ok(())
}

#[test]
fn another_name(rt: HostRuntime) -> Result<(), Fail> {
    let alloc = rt.alloc();
    let mut bibliography = parsed(alloc, "@book{tolkien1937, title={The Hobbit}}")?;
    bibliography.alias("tolkien1937", "hobbit")?;
    assert!(rt; bibliography.get("hobbit").is_some());
    Ok(())
}

#[test]
fn insert_an_entry(rt: HostRuntime) -> Result<(), Fail> {
    let alloc = rt.alloc();
    let mut bibliography = Bibliography::new(alloc);
    let mut entry = Entry::new(alloc, Text::from_str(alloc, "k")?, EntryType::Article);
    entry.set_doi(&String::from_str(alloc, "10.1000/182")?)?;
    let had = bibliography.insert(entry)?;
    assert!(rt; had.is_none());
    assert!(rt; bibliography.len() == 1);
    Ok(())
}

#[test]
fn write_a_file(rt: HostRuntime) -> Result<(), Fail> {
    let alloc = rt.alloc();
    let bibliography = parsed(alloc, "@thesis{t, institution={TU}, date={2019-10}}")?;
    let text = bibliography.to_bibtex_string(alloc)?;
    let want = "@phdthesis{t,\nyear = {2019},\nmonth = {10},\nschool = {TU},\n}\n";
    assert!(rt; text.as_str() == want);
    assert!(rt; bibliography.is_settled());
    Ok(())
}
