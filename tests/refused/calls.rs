//! The calls, each on a worked example.

use crate::ends::{
    Answer, answered, entry, finds, has_fields, is_no_memory, normal, read, refused,
};
use biblatex::{
    Bibliography, Date, DateValue, Datetime, Entry, PermissiveType, Report, TypeErrorKind,
};
use std::alloc::{AllocError, Global};

/// How the call of this name ends, if there is one.
pub fn call(alloc: Global, name: &str) -> Option<Answer> {
    let answer = match name {
        "parse" => parse(alloc),
        "parse-names" => parse_names(alloc),
        "insert" => insert(alloc),
        "insert-taking" => insert_taking(alloc),
        "insert-present" => insert_present(alloc),
        "alias" => alias(alloc),
        "set" => set(alloc),
        "set-title" => set_title(alloc),
        "set-date" => set_date(alloc),
        "biblatex" => biblatex(alloc),
        "bibtex" => bibtex(alloc),
        "entry-biblatex" => entry_biblatex(alloc),
        "entry-bibtex" => entry_bibtex(alloc),
        "verify" => verify(alloc),
        "clone" => clone(alloc),
        _ => return None,
    };
    Some(answer)
}

// An entry that inherits, and the one that gives.
static INHERITING: &str = "@mvbook{p, title={Works}} @book{c, title={One}, crossref={p}}";

// The fields of the entry that inherits.
static CHILD: [(&str, &str); 3] = [("crossref", "p"), ("maintitle", "Works"), ("title", "One")];

// An entry of which two fields have one written name.
static JOURNALS: &str = "@article{k, journal={A}, journaltitle={B}}";

// Whether it is the bibliography of an entry that inherits.
fn is_inheriting(library: &Bibliography) -> bool {
    library.len() == 2
        && finds(library, "p", "p", &[("title", "Works")])
        && finds(library, "c", "c", &CHILD)
}

fn parse(alloc: Global) -> Answer {
    match Bibliography::parse(alloc, INHERITING) {
        Ok(library) => Ok(answered(is_inheriting(&library))),
        Err(error) => Ok(refused(is_no_memory(&error))),
    }
}

fn parse_names(alloc: Global) -> Answer {
    let fields = [("journal", "A"), ("journaltitle", "B")];
    match Bibliography::parse(alloc, JOURNALS) {
        Ok(library) => Ok(answered(library.len() == 1 && finds(&library, "k", "k", &fields))),
        Err(error) => Ok(refused(is_no_memory(&error))),
    }
}

// Whether the entry `k` with its other names was added to the two entries.
fn is_added(library: &Bibliography) -> bool {
    let fields = [("ids", "x, y")];
    library.len() == 3
        && finds(library, "k", "k", &fields)
        && finds(library, "x", "k", &fields)
        && finds(library, "y", "k", &fields)
        && finds(library, "p", "p", &[("title", "Works")])
}

fn insert(alloc: Global) -> Answer {
    let mut library = read(alloc, INHERITING)?;
    let before = library.clone()?;
    let new = entry(alloc, "k", &[("ids", "x, y")])?;
    let given = new.clone()?;
    Ok(match library.insert(new) {
        Ok(had) => answered(had.is_none() && is_added(&library)),
        Err(error) => refused(error.entry == given && library == before),
    })
}

// Inserts an entry whose `ids` name the key of another entry, so that this name points to the new entry.
fn insert_taking(alloc: Global) -> Answer {
    let mut library = read(alloc, INHERITING)?;
    let before = library.clone()?;
    let fields = [("ids", "x, c")];
    let new = entry(alloc, "k", &fields)?;
    let given = new.clone()?;
    Ok(match library.insert(new) {
        Ok(had) => {
            let is_taken = finds(&library, "c", "k", &fields) && finds(&library, "x", "k", &fields);
            answered(had.is_none() && library.len() == 3 && is_taken)
        }
        Err(error) => refused(error.entry == given && library == before && finds(&library, "c", "c", &CHILD)),
    })
}

fn insert_present(alloc: Global) -> Answer {
    let mut library = read(alloc, INHERITING)?;
    let new = entry(alloc, "c", &[("ids", "x, y")])?;
    let Ok(Some(had)) = library.insert(new) else {
        return Ok(answered(false));
    };
    let is_exchanged = finds(&library, "c", "c", &[("ids", "x, y")]);
    Ok(answered(is_exchanged && had.key.as_str() == "c" && library.get("x").is_none()))
}

fn alias(alloc: Global) -> Answer {
    let mut library = read(alloc, JOURNALS)?;
    let before = library.clone()?;
    let fields = [("journal", "A"), ("journaltitle", "B")];
    Ok(match library.alias("k", "z") {
        Ok(()) => answered(library.len() == 1 && finds(&library, "z", "k", &fields)),
        Err(AllocError) => refused(library == before),
    })
}

fn set(alloc: Global) -> Answer {
    let mut changed = entry(alloc, "k", &[])?;
    let before = changed.clone()?;
    let (chunks, given) = (normal(alloc, "V")?, normal(alloc, "V")?);
    Ok(match changed.set("Volume", chunks) {
        Ok(had) => answered(had.is_none() && has_fields(&changed, &[("volume", "V")])),
        Err(error) => refused(error.chunks == given && changed == before),
    })
}

fn set_title(alloc: Global) -> Answer {
    let mut changed = entry(alloc, "k", &[("title", "Old")])?;
    let before = changed.clone()?;
    let (chunks, given) = (normal(alloc, "New")?, normal(alloc, "New")?);
    let old = normal(alloc, "Old")?;
    Ok(match changed.set_title(chunks) {
        Ok(had) => answered(had == Some(old) && has_fields(&changed, &[("title", "New")])),
        Err(error) => refused(error.chunks == given && changed == before),
    })
}

// The fourteenth of October 1066: months and days count from 0.
fn hastings() -> Date {
    let day = Datetime {
        year: 1066,
        month: Some(9),
        day: Some(13),
        time: None,
    };
    Date {
        value: DateValue::At(day),
        uncertain: false,
        approximate: false,
    }
}

fn set_date(alloc: Global) -> Answer {
    let fields = [("year", "1"), ("month", "2"), ("day", "3"), ("note", "N")];
    let mut changed = entry(alloc, "k", &fields)?;
    let before = changed.clone()?;
    Ok(match changed.set_date(&PermissiveType::Typed(hastings())) {
        Ok(()) => answered(has_fields(&changed, &[("date", "1066-10-14"), ("note", "N")])),
        Err(AllocError) => refused(changed == before),
    })
}

// The end of a call that writes this text.
fn written(text: Result<String, AllocError>, want: &str) -> Answer {
    Ok(match text {
        Ok(text) => answered(text.as_str() == want),
        Err(AllocError) => refused(true),
    })
}

fn biblatex(alloc: Global) -> Answer {
    let library = read(alloc, JOURNALS)?;
    let want = "@article{k,\njournaltitle = {A},\njournaltitle = {B},\n}\n";
    written(library.to_biblatex_string(alloc), want)
}

fn bibtex(alloc: Global) -> Answer {
    let library = read(alloc, "@thesis{t, institution={TU}, date={2019-10}}")?;
    let want = "@phdthesis{t,\nyear = {2019},\nmonth = {10},\nschool = {TU},\n}\n";
    written(library.to_bibtex_string(alloc), want)
}

// An entry with a date and a value that is no text alone.
fn dated(alloc: Global) -> Result<Entry, AllocError> {
    entry(alloc, "k", &[("date", "2000-05/2001"), ("title", "A & B")])
}

fn entry_biblatex(alloc: Global) -> Answer {
    let entry = dated(alloc)?;
    let want = "@misc{k,\ndate = {2000-05/2001},\ntitle = {A \\& B},\n}";
    written(entry.to_biblatex_string(alloc), want)
}

fn entry_bibtex(alloc: Global) -> Answer {
    let entry = dated(alloc)?;
    let want = "@misc{k,\nyear = {2000},\nmonth = {05},\nendyear = {2001},\ntitle = {A \\& B},\n}";
    written(entry.to_bibtex_string(alloc), want)
}

// Whether a volume that is no number is all that isn't read.
fn is_volume_malformed(report: &Report) -> bool {
    match report.malformed.as_slice() {
        [(name, error)] => name.as_str() == "volume" && error.kind == TypeErrorKind::InvalidNumber,
        _ => false,
    }
}

// Whether it is the report of a work in volumes that has a title and a volume.
fn is_report(report: &Report) -> bool {
    report.missing.as_slice() == ["author", "year"].as_slice()
        && report.superfluous.as_slice() == ["volume"].as_slice()
        && is_volume_malformed(report)
}

fn verify(alloc: Global) -> Answer {
    let library = read(alloc, "@mvbook{m, title={x}, volume={y}}")?;
    let Some(entry) = library.get("m") else {
        return Ok(answered(false));
    };
    Ok(match entry.verify(alloc) {
        Ok(report) => answered(is_report(&report)),
        Err(AllocError) => refused(true),
    })
}

fn clone(alloc: Global) -> Answer {
    let library = read(alloc, INHERITING)?;
    Ok(match library.clone() {
        Ok(copy) => answered(copy == library && is_inheriting(&copy)),
        Err(AllocError) => refused(is_inheriting(&library)),
    })
}
