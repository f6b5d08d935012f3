//! The first example of docs/LIBRARY.md: its lines, with `format!` where it prints, and its output as the expected text.

use biblatex::{Bibliography, ChunksExt, PermissiveType};
use std::test::Fail;

#[test]
fn first_example(rt: HostRuntime) -> Result<(), Fail> {
    let alloc = rt.alloc();
    let src = "@book{tolkien1937, author = {J. R. R. Tolkien}, title = {The {Hobbit}}, ids = {hobbit}}";
    let mut bibliography = Bibliography::parse(alloc, src)?;
    if let Some(book) = bibliography.get_mut("hobbit") {
        let title = book.title(alloc)?.format_verbatim(alloc)?;
        for person in &book.author(alloc)? {
            let line = format!(in alloc; "{}: {}", person.name.as_str(), title.as_str())?;
            assert!(rt; line.as_str() == "Tolkien: The Hobbit");
        }
        book.set_edition(&PermissiveType::Typed(2))?;
    }
    let line = format!(in alloc; "{}", bibliography.to_biblatex_string(alloc)?.as_str())?;
    let want = "@book{tolkien1937,
author = {J. R. R. Tolkien},
edition = {2},
ids = {hobbit},
title = {The {Hobbit}},
}
";
    assert!(rt; line.as_str() == want);
    Ok(())
}
