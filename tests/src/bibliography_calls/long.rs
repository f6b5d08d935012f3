//! Long values and generated files: chains, ladders and long lists of references, keys that fall, values of 1 MiB and of many
//! elements.

use crate::bibliography_calls::checks::{agrees, parsed};
use biblatex::{Bibliography, ChunksRef, Entry, ParseError, RawBibliography};
use std::alloc::{AllocError, Global};
use std::process::Abort;
use std::test::Fail;

// A text again and again.
fn repeated(alloc: Global, text: &str, times: usize) -> Result<String, AllocError> {
    let mut all = String::new(alloc);
    for _ in 0..times {
        all.push_str(text)?;
    }
    Ok(all)
}

// Entries that each refer to the next, and a last one with a publisher.
fn chain(alloc: Global, length: usize) -> Result<String, AllocError> {
    let mut file = String::new(alloc);
    for n in 0..length {
        let next = n.wrapping_add(1);
        let line = format!(in alloc; "@xdata{{x{n}, xdata={{x{next}}}}}\n")?;
        file.push_str(line.as_str())?;
    }
    let last = format!(in alloc; "@xdata{{x{length}, publisher={{P}}}}\n")?;
    file.push_str(last.as_str())?;
    Ok(file)
}

// A chain, and entries that refer to it and to a cycle.
fn chain_and_cycle(alloc: Global, length: usize) -> Result<String, AllocError> {
    let mut file = chain(alloc, length)?;
    file.push_str("@xdata{end, ids={more}, xdata={end}} @xdata{x, xdata={x0, end}}")?;
    Ok(file)
}

// Entries that each refer twice to the one before, and a first one with a publisher.
fn ladder(alloc: Global, length: usize) -> Result<String, AllocError> {
    let mut file = String::from_str(alloc, "@xdata{x0, publisher={P}}\n")?;
    for n in 0..length {
        let next = n.wrapping_add(1);
        let line = format!(in alloc; "@xdata{{x{next}, xdata={{x{n}, x{n}}}}}\n")?;
        file.push_str(line.as_str())?;
    }
    Ok(file)
}

// An entry that names another many times.
fn named_often(alloc: Global, times: usize) -> Result<String, AllocError> {
    let names = repeated(alloc, ",x", times)?;
    format!(in alloc;
        "@xdata{{x, publisher={{P}}}} @book{{b, xdata={{x{}}}}}",
        names.as_str()
    )
}

// Entries the keys of which fall.
fn falling(alloc: Global, count: u32) -> Result<String, AllocError> {
    let mut file = String::new(alloc);
    for n in (0..count).rev() {
        let line = format!(in alloc; "@misc{{n{n:03}, title={{t{n}}}}}\n")?;
        file.push_str(line.as_str())?;
    }
    Ok(file)
}

// A definition of 1 MiB, an entry with a title as long, and a note of twice the definition.
fn long_values(alloc: Global) -> Result<String, AllocError> {
    let text = repeated(alloc, "aé bc d", 131_072)?;
    format!(in alloc; "@string{{s = {{{text}}}}} @misc{{k, title = {{{text}}}, note = s # s}}")
}

// A note of many elements.
fn many_elements(alloc: Global, count: usize) -> Result<String, AllocError> {
    let elements = repeated(alloc, "s # ", count)?;
    format!(in alloc;
        "@string{{s = 12}} @misc{{k, note = {}{{x}}}}",
        elements.as_str()
    )
}

// Adds the length of each chunk, or the text of a short one.
fn push_lengths(out: &mut String, alloc: Global, chunks: ChunksRef<'_>) -> Result<(), AllocError> {
    for chunk in chunks {
        let text = chunk.v.get();
        let length = text.len().to_string(alloc)?;
        out.push('+')?;
        out.push_str(if text.len() < 100 {
            text
        } else {
            length.as_str()
        })?;
    }
    Ok(())
}

// The fields of an entry, `title=+t note=+12+3`: texts of chunks, or lengths.
fn fields(alloc: Global, entry: &Entry) -> Result<String, AllocError> {
    let mut out = String::new(alloc);
    for (name, chunks) in entry.fields.iter() {
        out.push(' ')?;
        out.push_str(name.as_str())?;
        out.push('=')?;
        push_lengths(&mut out, alloc, chunks.as_slice())?;
    }
    Ok(out)
}

// How many entries there are, the first key, and the fields of the entry that a name points to.
fn shown(alloc: Global, bibliography: &Bibliography, name: &str) -> Result<String, AllocError> {
    let first = bibliography.keys().next().unwrap_or("-");
    let fields = match bibliography.get(name) {
        Some(entry) => fields(alloc, entry)?,
        None => String::from_str(alloc, " nothing")?,
    };
    let count = bibliography.len();
    format!(in alloc; "{count} from {first}, {name}:{}", fields.as_str())
}

// The same of a file, or the kind of its error.
fn read(alloc: Global, file: &str, name: &str) -> Result<String, AllocError> {
    match parsed(alloc, file) {
        Ok(bibliography) => shown(alloc, &bibliography, name),
        Err(error) => error.kind.to_string(alloc),
    }
}

// The file has these entries, or this error, as a text.
fn says(
    rt: &impl Abort,
    alloc: Global,
    file: Result<String, AllocError>,
    name: &str,
    want: &str,
) -> Result<(), AllocError> {
    let file = file?;
    let found = read(alloc, file.as_str(), name)?;
    agrees(rt, found.as_str(), want);
    Ok(())
}

#[test]
fn goes_along_a_chain(rt: HostRuntime) -> Result<(), AllocError> {
    let a = rt.alloc();
    says(
        &rt,
        a,
        chain(a, 30_000),
        "x0",
        "30001 from x0, x0: publisher=+P",
    )
}

#[test]
fn goes_along_a_chain_into_a_cycle(rt: HostRuntime) -> Result<(), AllocError> {
    let a = rt.alloc();
    says(
        &rt,
        a,
        chain_and_cycle(a, 30_000),
        "x",
        "circular reference \"end\"",
    )
}

#[test]
fn reads_long_lists(rt: HostRuntime) -> Result<(), AllocError> {
    let a = rt.alloc();
    says(
        &rt,
        a,
        ladder(a, 20),
        "x20",
        "21 from x0, x20: publisher=+P",
    )?;
    says(
        &rt,
        a,
        named_often(a, 50_000),
        "b",
        "2 from x, b: publisher=+P",
    )?;
    says(
        &rt,
        a,
        falling(a, 300),
        "n000",
        "300 from n299, n000: title=+t0",
    )?;
    says(
        &rt,
        a,
        falling(a, 300),
        "n299",
        "300 from n299, n299: title=+t299",
    )
}

#[test]
fn reads_long_values(rt: HostRuntime) -> Result<(), AllocError> {
    let a = rt.alloc();
    says(
        &rt,
        a,
        long_values(a),
        "k",
        "1 from k, k: note=+2097152 title=+1048576",
    )?;
    says(
        &rt,
        a,
        many_elements(a, 70_000),
        "k",
        "1 from k, k: note=+140001",
    )
}

// How many turns the entries of a file took over what they inherit in.
fn turns(alloc: Global, file: &str) -> Result<usize, ParseError> {
    let raw = RawBibliography::parse(alloc, file)?;
    let (_bibliography, turns) = Bibliography::from_raw_counted(alloc, raw)?;
    Ok(turns.len())
}

#[test]
fn takes_a_turn_for_each_entry(rt: HostRuntime) -> Result<(), Fail> {
    let alloc = rt.alloc();
    let file = chain(alloc, 30_000)?;
    assert!(rt; turns(alloc, file.as_str())? == 30_001);
    let file = ladder(alloc, 20)?;
    assert!(rt; turns(alloc, file.as_str())? == 21);
    Ok(())
}
