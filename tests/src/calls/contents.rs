//! Contents of fields whose definitions are long chains.

use crate::calls::checks::agrees;
use bib_chunks::chunk::{Chunk, Chunks};
use bib_abbreviations::parsing::parse_field;
use bib_syntax::raw::{Field, ParseError, RawBibliography};
use std::alloc::{AllocError, Global};
use std::collections::HashMap;
use std::test::Fail;

// The raw reading of a file.
fn parsed(alloc: Global, file: &str) -> Result<RawBibliography<'_>, ParseError> {
    RawBibliography::parse(alloc, file)
}

// The contents of a title with these definitions.
fn contents(
    alloc: Global,
    value: &Field<'_>,
    names: &HashMap<&str, &Field<'_>>,
) -> Result<Chunks, ParseError> {
    parse_field(alloc, "title", value, names)
}

// The contents of the first field of a file's first entry.
fn said(alloc: Global, file: &str) -> Result<Chunks, Fail> {
    let raw = parsed(alloc, file)?;
    let mut names = HashMap::new(alloc);
    for pair in &raw.abbreviations {
        names.insert(pair.key.v, &pair.value.v)?;
    }
    let entry = raw.entries.first().ok_or("an entry")?;
    let field = entry.v.fields.first().ok_or("a field")?;
    Ok(contents(alloc, &field.value.v, &names)?)
}

// The text of the only chunk, a normal one.
fn only(chunks: &Chunks) -> &str {
    let [chunk] = chunks.as_slice() else {
        return "not one chunk";
    };
    match &chunk.v {
        Chunk::Normal(text) => text.as_str(),
        _ => "not a normal chunk",
    }
}

// The first definition, and after it others, each of which names the one before it once or twice; the last is a field's
// value.
fn chain(alloc: Global, first: &str, length: u32, is_doubled: bool) -> Result<String, AllocError> {
    let mut file = format!(in alloc; "@string{{a0 = {{{first}}}}}")?;
    for n in 0..length {
        let next = n.wrapping_add(1);
        let line = if is_doubled {
            format!(in alloc; "@string{{a{next} = a{n} # a{n}}}")?
        } else {
            format!(in alloc; "@string{{a{next} = a{n}}}")?
        };
        file.push_str(line.as_str())?;
    }
    let field = format!(in alloc; "@misc{{k, title = a{length}}}")?;
    file.push_str(field.as_str())?;
    Ok(file)
}

#[test]
fn reads_long_chains_of_names(rt: HostRuntime) -> Result<(), Fail> {
    let alloc = rt.alloc();
    let file = chain(alloc, "end", 20_000, false)?;
    agrees(&rt, only(&said(alloc, file.as_str())?), "end");
    let file = chain(alloc, "x", 16, true)?;
    let doubled = said(alloc, file.as_str())?;
    assert!(rt; only(&doubled).len() == 65_536 && only(&doubled).bytes().all(|byte| byte == b'x'));
    Ok(())
}
