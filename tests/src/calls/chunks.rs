//! The text of a chunk, lent and changed, and copies.

use crate::calls::checks::agrees;
use bib_chunks::chunk::{Chunk, Chunks, Spanned};
use bib_text::items::Items;
use bib_text::text::Text;
use bib_typed::ext::ChunksExt;
use std::test::Fail;

#[test]
fn gets_and_changes_texts(rt: HostRuntime) -> Result<(), Fail> {
    let alloc = rt.alloc();
    let mut chunk = Chunk::Math(Text::from_str(alloc, "x")?);
    chunk.get_mut().push_str("^2")?;
    agrees(&rt, chunk.get(), "x^2");
    assert!(rt; chunk == Chunk::Math(Text::from_str(alloc, "x^2")?));
    assert!(rt; chunk != Chunk::Verbatim(Text::from_str(alloc, "x^2")?));
    assert!(rt; chunk.clone()? == chunk);
    let mut chunks = Items::new(alloc);
    chunks.push(Spanned::new(chunk, 2..5))?;
    assert!(rt; chunks.clone()? == chunks);
    Ok(())
}

#[test]
fn calls_on_chunks(rt: HostRuntime) -> Result<(), Fail> {
    let alloc = rt.alloc();
    let mut chunks: Chunks = Items::new(alloc);
    assert!(rt; chunks.span() == (0..0));
    chunks.push(Spanned::new(Chunk::Normal(Text::from_str(alloc, "the Sum ")?), 2..10))?;
    chunks.push(Spanned::new(Chunk::Math(Text::from_str(alloc, "x")?), 11..12))?;
    agrees(&rt, &chunks.format_verbatim(alloc)?, "the Sum $x$");
    agrees(&rt, &chunks.format_sentence(alloc)?, "The sum $x$");
    agrees(&rt, &chunks.to_biblatex_string(alloc, false)?, "{the Sum $x$}");
    assert!(rt; chunks.span() == (2..12));
    let read: Result<String, _> = chunks.parse(alloc);
    agrees(&rt, &read.unwrap_or(String::new(alloc)), "the Sum $x$");
    Ok(())
}
